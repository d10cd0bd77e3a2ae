package main

func main() {
	a := 1
	a, b = 2, 3
}
