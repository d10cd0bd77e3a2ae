package main

func main() {
	n := 3
	println(int64(n) + 1)
}
