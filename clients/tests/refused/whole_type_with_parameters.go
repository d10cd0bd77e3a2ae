package main

type Stack[T any] struct {
	items []T
}

func main() {
	println(1)
}
