package main

import (
	"fmt"
	"sync"
)

type Gauge struct {
	mu    sync.Mutex
	level *int
}

// The receiver is a copy, and so is its lock: two goroutines may be in here at once.
func (g Gauge) raise() {
	g.mu.Lock()
	defer g.mu.Unlock()
	*g.level++
}

func main() {
	level := 0
	gauge := Gauge{level: &level}
	var wg sync.WaitGroup
	wg.Add(2)
	for i := 0; i < 2; i++ {
		go func() {
			defer wg.Done()
			gauge.raise()
		}()
	}
	wg.Wait()
	other := gauge
	other.mu.Lock()
	gauge.raise()
	fmt.Println(level)
}
