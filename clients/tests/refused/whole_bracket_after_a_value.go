package main

func main() {
	x := 1
	println(x));
	println(2)
}
