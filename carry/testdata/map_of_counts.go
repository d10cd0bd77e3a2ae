package main

import (
	"fmt"
	"sync"
)

type store struct {
	mu     sync.RWMutex
	counts map[string]int
}

func (s *store) add(key string) {
	s.mu.Lock()
	defer s.mu.Unlock()
	s.counts[key]++
}

func (s *store) get(key string) (int, bool) {
	s.mu.RLock()
	defer s.mu.RUnlock()
	n, ok := s.counts[key]
	return n, ok
}

func main() {
	s := &store{counts: make(map[string]int)}
	var wg sync.WaitGroup
	for i := 0; i < 3; i++ {
		wg.Add(1)
		go func(n int) {
			defer wg.Done()
			s.add(fmt.Sprintf("user-%d", n%2))
		}(i)
	}
	wg.Wait()
	for i := 0; i < 3; i++ {
		n, ok := s.get(fmt.Sprintf("user-%d", i))
		fmt.Println(i, n, ok)
	}
}
