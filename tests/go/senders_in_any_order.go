package main

// Three senders without a buffer: the values come in any of six orders.
func send(c chan int, n int) {
	c <- n
}

func main() {
	c := make(chan int)
	go send(c, 1)
	go send(c, 2)
	go send(c, 3)
	println(<-c, <-c, <-c)
}
