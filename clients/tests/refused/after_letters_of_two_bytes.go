package main

func main() {
	println("éé", total)
}
