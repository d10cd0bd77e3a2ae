package main

func main() {
	total := 0.0
	println(total)
}
