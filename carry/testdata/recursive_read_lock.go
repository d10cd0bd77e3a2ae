package main

import (
	"fmt"
	"sync"
)

var mu sync.RWMutex
var total int

func read() int {
	mu.RLock()
	defer mu.RUnlock()
	return total
}

func sum() int {
	mu.RLock()
	defer mu.RUnlock()
	return read() + 1
}

func main() {
	done := make(chan bool)
	go func() {
		mu.Lock()
		total = 5
		mu.Unlock()
		done <- true
	}()
	s := sum()
	<-done
	fmt.Println(s > 0)
}
