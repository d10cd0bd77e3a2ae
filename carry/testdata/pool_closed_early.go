package main

import (
	"fmt"
	"sync"
)

type Pool struct {
	results chan int
	wg      sync.WaitGroup
}

func (p *Pool) worker() {
	defer p.wg.Done()
	for n := range p.numbers() {
		p.results <- n * n
	}
}

func (p *Pool) numbers() <-chan int {
	c := make(chan int, 2)
	c <- 2
	c <- 3
	close(c)
	return c
}

func main() {
	p := &Pool{results: make(chan int, 4)}
	for i := 0; i < 2; i++ {
		p.wg.Add(1)
		go p.worker()
	}
	go func() {
		<-p.results
		close(p.results) // a worker may still be at work
	}()
	p.wg.Wait()
	fmt.Println("done")
}
