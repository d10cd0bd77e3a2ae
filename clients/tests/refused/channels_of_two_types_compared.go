package main

func main() {
	a, b := make(chan int), make(chan bool)
	println(a == b)
}
