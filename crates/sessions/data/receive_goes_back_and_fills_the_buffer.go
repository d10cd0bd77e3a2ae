package main

func send(c chan int) {
	c <- 1
	c <- 2
	c <- 3
	c <- 4
	c <- 5
}

func main() {
	c := make(chan int, 5)
	go send(c)
	println(<-c)
}
