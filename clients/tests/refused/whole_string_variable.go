package main

func main() {
	var name string = "ann"
	println(name)
}
