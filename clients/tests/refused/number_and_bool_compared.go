package main

func main() {
	n := 1
	ok := true
	println(n == ok)
}
