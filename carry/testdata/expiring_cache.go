package main

import (
	"fmt"
	"sync"
	"time"
)

type entry struct {
	value   string
	expires time.Time
}

type Cache struct {
	mu      sync.RWMutex
	entries map[string]entry
	hits    int
	misses  int
}

func NewCache() *Cache {
	return &Cache{entries: map[string]entry{}}
}

func (c *Cache) Get(key string, load func(string) (string, error)) (string, error) {
	c.mu.RLock()
	e, ok := c.entries[key]
	c.mu.RUnlock()
	if ok && time.Now().Before(e.expires) {
		c.mu.Lock()
		c.hits++
		c.mu.Unlock()
		return e.value, nil
	}
	value, err := load(key)
	if err != nil {
		return "", err
	}
	c.mu.Lock()
	defer c.mu.Unlock()
	c.misses++
	c.entries[key] = entry{value: value, expires: time.Now().Add(time.Minute)}
	return value, nil
}

func main() {
	cache := NewCache()
	load := func(key string) (string, error) {
		if key == "" {
			return "", fmt.Errorf("empty key")
		}
		return "value of " + key, nil
	}
	var wg sync.WaitGroup
	for _, key := range []string{"a", "b", "a"} {
		wg.Add(1)
		go func(key string) {
			defer wg.Done()
			v, err := cache.Get(key, load)
			if err != nil {
				fmt.Println("error:", err)
				return
			}
			fmt.Println(key, "=", v)
		}(key)
	}
	wg.Wait()
	fmt.Println("total", cache.hits+cache.misses)
}
