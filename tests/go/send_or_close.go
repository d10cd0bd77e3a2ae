package main

// A send races with a close: a panic in some runs.
func send(c chan int) {
	c <- 1
}

func main() {
	c := make(chan int, 1)
	go send(c)
	go send(c)
	<-c
	close(c)
	v, ok := <-c
	println(v, ok)
}
