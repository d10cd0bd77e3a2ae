package main

func main() {
	var b byte = 3
	println(b)
}
