package main

import (
	"fmt"
	"sync"
)

func main() {
	var mu sync.Mutex
	changed := sync.NewCond(&mu)
	ready := false
	var wg sync.WaitGroup
	wg.Add(4)
	for i := 0; i < 2; i++ {
		go func() {
			defer wg.Done()
			mu.Lock()
			for !ready {
				changed.Wait()
			}
			mu.Unlock()
		}()
		go func() {
			defer wg.Done()
			mu.Lock()
			ready = true
			mu.Unlock()
			changed.Broadcast()
		}()
	}
	wg.Wait()
	fmt.Println("all woken")
}
