package main

import (
	"fmt"
	"sync"
)

type Gate struct {
	mu   sync.Mutex
	open bool
}

func main() {
	gate := &Gate{}
	var wg sync.WaitGroup
	wg.Add(1)
	go func() {
		defer wg.Done()
		gate.mu.Lock()
		defer gate.mu.Unlock()
		gate.open = true
	}()
	gate.mu.Lock()
	early := gate.open
	gate.mu.Unlock()
	wg.Wait()
	fmt.Println(early, gate.open)
}
