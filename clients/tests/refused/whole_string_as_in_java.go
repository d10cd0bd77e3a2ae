package main

func main() {
	String name = "ann"
	println(name)
}
