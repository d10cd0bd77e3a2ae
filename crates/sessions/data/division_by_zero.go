package main

func main() {
	x, y := 1, 0
	println(x / y)
}
