package main

func work() {
	println(1)

func main() {
}
