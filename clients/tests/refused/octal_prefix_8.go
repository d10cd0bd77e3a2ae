package main

func main() {
	println(0o8)
}
