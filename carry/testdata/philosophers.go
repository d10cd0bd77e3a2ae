package main

import (
	"fmt"
	"sync"
	"time"
)

const N = 5

type Fork struct{ sync.Mutex }

type Phil struct {
	id          int
	left, right *Fork
}

func (p *Phil) dine(wg *sync.WaitGroup) {
	defer wg.Done()
	for i := 0; i < 2; i++ {
		p.left.Lock()
		time.Sleep(time.Millisecond)
		p.right.Lock()
		fmt.Printf("Philosopher %d is eating\n", p.id)
		p.right.Unlock()
		p.left.Unlock()
	}
}

func main() {
	forks := make([]*Fork, N)
	for i := 0; i < N; i++ {
		forks[i] = &Fork{}
	}
	phils := make([]*Phil, N)
	for i := 0; i < N; i++ {
		phils[i] = &Phil{i, forks[i], forks[(i+1)%N]}
	}
	var wg sync.WaitGroup
	wg.Add(N)
	for _, p := range phils {
		go p.dine(&wg)
	}
	wg.Wait()
}
