package main

func main() {
	total int
	println(total)
}
