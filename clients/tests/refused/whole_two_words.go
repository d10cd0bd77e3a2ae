package main

func main() {
	x := 1
	x plus 2
	println(x)
}
