package main

func main() {
	println("one\q")
}
