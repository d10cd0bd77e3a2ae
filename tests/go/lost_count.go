package main

// Two read a count, put it back, and then write what they had read and one more: a step may be lost.
func add(cell chan int, done chan struct{}) {
	n := <-cell
	cell <- n
	<-cell
	cell <- n + 1
	done <- struct{}{}
}

func main() {
	cell, done := make(chan int, 1), make(chan struct{})
	cell <- 0
	go add(cell, done)
	go add(cell, done)
	<-done
	<-done
	println(<-cell)
}
