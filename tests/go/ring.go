package main

// A token goes round a ring.
func pass(in, out chan int) {
	for v := range in {
		out <- v + 1
	}
	close(out)
}

func main() {
	first := make(chan int)
	last := first
	for i := 0; i < 4; i++ {
		next := make(chan int)
		go pass(last, next)
		last = next
	}
	first <- 0
	println(<-last)
	first <- 10
	println(<-last)
	close(first)
	_, ok := <-last
	println(ok)
}
