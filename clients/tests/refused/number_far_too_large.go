package main

func main() {
	println(99999999999999999999999)
}
