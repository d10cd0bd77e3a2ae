package main

import (
	"fmt"
	"sync"
	"sync/atomic"
)

func main() {
	var n int64
	var wg sync.WaitGroup
	wg.Add(2)
	go func() {
		defer wg.Done()
		atomic.AddInt64(&n, 1)
	}()
	go func() {
		defer wg.Done()
		n = n + 2
	}()
	wg.Wait()
	fmt.Println(n)
}
