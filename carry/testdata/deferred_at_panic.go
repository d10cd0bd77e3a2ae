package main

import (
	"fmt"
	"sync"
)

type store struct {
	mu    sync.Mutex
	items int
}

func (s *store) take(n int) {
	s.mu.Lock()
	defer s.mu.Unlock()
	check(s.items, n)
	s.items -= n
}

func check(has, n int) {
	defer fmt.Println("checked", n)
	if n > has {
		panic("not enough items")
	}
}

func serve(s *store, orders []int, done chan<- string) {
	served := 0
	defer func() { done <- fmt.Sprintf("served %d", served) }()
	for _, n := range orders {
		func() {
			defer fmt.Println("order", n)
			s.take(n)
		}()
		served++
	}
}

func main() {
	s := &store{items: 3}
	done := make(chan string)
	go serve(s, []int{1, 5}, done)
	fmt.Println(<-done)
	s.mu.Lock()
	fmt.Println("left", s.items)
	s.mu.Unlock()
}
