package main

import (
	"errors"
	"fmt"
	"sync"
)

type Stock struct {
	mu    sync.Mutex
	count int
}

func (s *Stock) take(n int) error {
	s.mu.Lock()
	if s.count < n {
		return errors.New("sold out")
	}
	s.count -= n
	s.mu.Unlock()
	return nil
}

func main() {
	s := Stock{count: 1}
	done := make(chan error)
	for i := 0; i < 3; i++ {
		go func() { done <- s.take(1) }()
	}
	for i := 0; i < 3; i++ {
		if err := <-done; err != nil {
			fmt.Println(err)
		}
	}
}
