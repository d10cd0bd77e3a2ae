package main

func main() {
	count := make(chan int, 1)
	count <- 0
	atomic.AddInt64(count, 1)
	println(<-count)
}
