package main

import (
	"fmt"
	"sync"
)

func merge(cs ...<-chan int) <-chan int {
	var wg sync.WaitGroup
	out := make(chan int)

	output := func(c <-chan int) {
		for n := range c {
			out <- n
		}
		wg.Done()
	}
	wg.Add(len(cs))
	for _, c := range cs {
		go output(c)
	}

	go func() {
		wg.Wait()
		close(out)
	}()
	return out
}

func one(n int) <-chan int {
	c := make(chan int, 1)
	c <- n
	close(c)
	return c
}

func main() {
	sum := 0
	for n := range merge(one(1), one(2), one(4)) {
		sum += n
	}
	fmt.Println(sum)
}
