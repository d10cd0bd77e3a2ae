package main

func max[T int | bool](a, b T) T {
	return a
}

func main() {
	println(max(1, 2))
}
