package main

// Two receivers share three values: who gets which is open.
func receive(name int, c chan int, done chan int) {
	sum := 0
	for v := range c {
		sum = 10*sum + v
	}
	done <- 1000*name + sum
}

func main() {
	c, done := make(chan int), make(chan int)
	go receive(1, c, done)
	go receive(2, c, done)
	c <- 1
	c <- 2
	c <- 3
	close(c)
	println(<-done)
	println(<-done)
}
