package main

func main() {
	println(later)
	later := 1
}
