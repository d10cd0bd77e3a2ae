package main

// A close wakes all who wait, and each finds it closed.
func wait(c chan int, out chan int, name int) {
	v, ok := <-c
	if !ok {
		v = -name
	}
	out <- v
}

func main() {
	c, out := make(chan int), make(chan int, 3)
	go wait(c, out, 1)
	go wait(c, out, 2)
	go wait(c, out, 3)
	c <- 7
	close(c)
	println(<-out + <-out + <-out)
}
