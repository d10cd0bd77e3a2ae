package main

func main() {
	long total = 5
	println(total)
}
