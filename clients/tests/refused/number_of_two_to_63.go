package main

func main() {
	println(9223372036854775808)
}
