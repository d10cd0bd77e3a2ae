package main

func main() {
	counter := 1
	println(countre)
}
