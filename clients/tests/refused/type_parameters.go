package main

func max[T int](a, b T) T {
	return a
}

func main() {
}
