package main

func main() {
	println(total)
}
