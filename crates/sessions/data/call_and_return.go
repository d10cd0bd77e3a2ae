package main

func twice(n int) int {
	return n * 2
}

func main() {
	x := twice(21)
	println(x)
}
