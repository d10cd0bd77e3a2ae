package main

func swap(a, b int) {
	println(a, b)
}

func main() {
	a, b := 1, 2
	swap(&a, &b)
	println(a, b)
}
