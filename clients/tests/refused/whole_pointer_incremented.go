package main

func main() {
	n := 1
	(*n)++
	println(n)
}
