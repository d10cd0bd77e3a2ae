package main

func apply(f func(int) int, n int) int {
	return f(n)
}

func main() {
}
