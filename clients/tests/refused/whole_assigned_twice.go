package main

func main() {
	x, y := 1, 2
	x = y = 3
	println(x, y)
}
