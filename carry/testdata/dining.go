package main

import (
	"fmt"
	"sync"
)

type Philosopher struct {
	id                  int
	leftFork, rightFork *sync.Mutex
}

func (p Philosopher) eat(wg *sync.WaitGroup) {
	defer wg.Done()
	p.leftFork.Lock()
	p.rightFork.Lock()
	fmt.Printf("philosopher %d eats\n", p.id)
	p.rightFork.Unlock()
	p.leftFork.Unlock()
}

func main() {
	const count = 3
	forks := make([]*sync.Mutex, count)
	for i := range forks {
		forks[i] = new(sync.Mutex)
	}
	var wg sync.WaitGroup
	for i := 0; i < count; i++ {
		p := Philosopher{i, forks[i], forks[(i+1)%count]}
		wg.Add(1)
		go p.eat(&wg)
	}
	wg.Wait()
}
