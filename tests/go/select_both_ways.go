package main

// Selects that send and receive meet each other.
func pair(c chan int, name int, out chan int) {
	select {
	case c <- name:
		out <- 10 * name
	case v := <-c:
		out <- 10*name + v
	}
}

func main() {
	c, out := make(chan int), make(chan int, 2)
	go pair(c, 1, out)
	go pair(c, 2, out)
	println(<-out)
	println(<-out)
}
