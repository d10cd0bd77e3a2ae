package main

func sum(numbers ...int) int {
	return 0
}

func main() {
	println(sum(1, 2, 3))
}
