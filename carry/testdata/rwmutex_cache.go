package main

import (
	"fmt"
	"sync"
)

type Cache struct {
	mu    sync.RWMutex
	value int
	set   bool
}

func (c *Cache) get() (int, bool) {
	c.mu.RLock()
	defer c.mu.RUnlock()
	return c.value, c.set
}

func (c *Cache) put(value int) {
	c.mu.Lock()
	defer c.mu.Unlock()
	c.value, c.set = value, true
}

func main() {
	var cache Cache
	var wg sync.WaitGroup
	wg.Add(1)
	go func() {
		cache.put(42)
		wg.Done()
	}()
	if v, ok := cache.get(); ok {
		fmt.Println("early", v)
	}
	wg.Wait()
	v, ok := cache.get()
	fmt.Println(v, ok)
}
