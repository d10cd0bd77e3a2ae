package main

func main() {
	c := make(chan int, 1)
	1 -> c
	println(<-c)
}
