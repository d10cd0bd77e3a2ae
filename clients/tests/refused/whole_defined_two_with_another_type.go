package main

func main() {
	x, ok := 1, true
	ok, x := 2, 3
	println(x, ok)
}
