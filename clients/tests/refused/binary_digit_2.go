package main

func main() {
	println(0b2)
}
