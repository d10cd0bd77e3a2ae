package main

type shape interface {
	area() int
}

func main() {
}
