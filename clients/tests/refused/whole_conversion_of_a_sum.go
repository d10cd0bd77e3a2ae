package main

func main() {
	a, b := 1, 2
	println(2 * float64(a+b))
}
