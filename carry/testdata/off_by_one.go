package main

import "fmt"

func produce(n int, out chan<- int) {
	for i := 0; i <= n; i++ { // one too many
		out <- i
	}
}

func main() {
	const n = 3
	c := make(chan int)
	done := make(chan int)
	go func() {
		produce(n, c)
		close(done)
	}()
	sum := 0
	for i := 0; i < n; i++ {
		sum += <-c
	}
	fmt.Println("sum", sum)
	<-done
}
