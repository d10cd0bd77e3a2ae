package main

// Senders wait for room in a full buffer, and the first value is sent before all.
func send(c chan int, n int, done chan struct{}) {
	c <- n
	done <- struct{}{}
}

func main() {
	c, done := make(chan int, 1), make(chan struct{}, 3)
	c <- 0
	go send(c, 1, done)
	go send(c, 2, done)
	println(<-c)
	println(<-c)
	<-done
	println(<-c)
	<-done
	println(len(done), cap(done))
}
