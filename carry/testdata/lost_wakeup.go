package main

import (
	"fmt"
	"sync"
)

var (
	mu    sync.Mutex
	cond  = sync.NewCond(&mu)
	ready bool
)

func main() {
	go func() {
		ready = true
		cond.Signal()
	}()
	mu.Lock()
	if !ready {
		cond.Wait()
	}
	mu.Unlock()
	fmt.Println("ready")
}
