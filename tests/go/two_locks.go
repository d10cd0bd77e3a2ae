package main

// Two locks in two orders: a deadlock in some runs.
func both(first, second chan struct{}, done chan int, name int) {
	<-first
	<-second
	second <- struct{}{}
	first <- struct{}{}
	done <- name
}

func main() {
	a, b, done := make(chan struct{}, 1), make(chan struct{}, 1), make(chan int)
	a <- struct{}{}
	b <- struct{}{}
	go both(a, b, done, 1)
	go both(b, a, done, 2)
	println(<-done)
	println(<-done)
}
