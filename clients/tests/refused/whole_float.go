package main

func main() {
	price := 1.5
	println(price)
}
