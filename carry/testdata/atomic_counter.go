package main

import (
	"fmt"
	"sync"
	"sync/atomic"
)

func main() {
	var ops int64
	var typed atomic.Int32
	var wg sync.WaitGroup
	for i := 0; i < 2; i++ {
		wg.Add(1)
		go func() {
			defer wg.Done()
			atomic.AddInt64(&ops, 2)
			typed.Add(1)
		}()
	}
	wg.Wait()
	fmt.Println("ops:", atomic.LoadInt64(&ops), typed.Load())
}
