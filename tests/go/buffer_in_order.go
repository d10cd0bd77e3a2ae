package main

// A buffer keeps the order of one sender.
func fill(c chan int, n int) {
	for i := 0; i < n; i++ {
		c <- i
	}
	close(c)
}

func main() {
	c := make(chan int, 2)
	go fill(c, 6)
	for v := range c {
		println(v)
	}
	v, ok := <-c
	println(v, ok)
}
