package main

type Handler func(int) int

func main() {
	println(1)
}
