package main

type Shape interface {
	Area() int
}

func main() {
	println(1)
}
