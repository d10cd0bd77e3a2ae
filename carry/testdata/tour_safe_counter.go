package main

import (
	"fmt"
	"sync"
)

// SafeCounter is safe to use concurrently.
type SafeCounter struct {
	mu sync.Mutex
	v  [2]int
}

// Inc increments the counter for the given key.
func (c *SafeCounter) Inc(key int) {
	c.mu.Lock()
	// Lock so only one goroutine at a time can access the array c.v.
	c.v[key]++
	c.mu.Unlock()
}

// Value returns the current value of the counter for the given key.
func (c *SafeCounter) Value(key int) int {
	c.mu.Lock()
	defer c.mu.Unlock()
	return c.v[key]
}

func main() {
	c := SafeCounter{}
	done := make(chan struct{})
	for i := 0; i < 3; i++ {
		go func() {
			c.Inc(1)
			done <- struct{}{}
		}()
	}
	for i := 0; i < 3; i++ {
		<-done
	}
	fmt.Println(c.Value(1), c.Value(0))
}
