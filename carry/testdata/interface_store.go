package main

import (
	"errors"
	"fmt"
	"runtime"
	"sync"
)

type Store interface {
	Get(key int) (int, error)
	Set(key, value int)
}

type memory struct {
	mu     sync.RWMutex
	values [4]int
}

var errKey = errors.New("no such key")
var hits int

func (m *memory) Get(key int) (int, error) {
	m.mu.RLock()
	defer m.mu.RUnlock()
	hits++
	if key >= len(m.values) {
		return 0, errKey
	}
	return m.values[key], nil
}

func (m *memory) Set(key, value int) {
	m.mu.Lock()
	defer m.mu.Unlock()
	m.values[key] = value
}

type Service struct {
	store Store
	name  string
}

func (s *Service) double(key int) error {
	v, err := s.store.Get(key)
	if err != nil {
		return err
	}
	s.store.Set(key, 2*v)
	return nil
}

type Shape interface{ Area() int }
type Square struct{ side int }

func (s Square) Area() int      { return s.side * s.side }
func (s Square) String() string { return "a square" }

func sum(shapes ...Shape) int {
	total := 0
	for _, s := range shapes {
		total += s.Area()
	}
	return total
}

func main() {
	var store Store = &memory{}
	store.Set(1, 21)
	s := &Service{store: store, name: "doubler"}
	var wg sync.WaitGroup
	wg.Add(1)
	go func() {
		defer wg.Done()
		if err := s.double(1); err != nil {
			fmt.Println(err)
		}
	}()
	wg.Wait()
	fmt.Println(store.Get(1))
	fmt.Println(s.double(9), s.name)
	workers := runtime.NumCPU()
	if workers > 0 {
		fmt.Println("hits", hits)
	}
	fmt.Println(sum(Square{2}, Square{3}))
	var one Shape = Square{4}
	fmt.Println(one, one.Area())
}
