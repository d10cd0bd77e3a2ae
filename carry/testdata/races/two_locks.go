package main

import (
	"fmt"
	"sync"
)

func main() {
	var a, b sync.Mutex
	n := 0
	var wg sync.WaitGroup
	wg.Add(2)
	go func() {
		defer wg.Done()
		a.Lock()
		defer a.Unlock()
		n += 1
	}()
	go func() {
		defer wg.Done()
		b.Lock()
		defer b.Unlock()
		n += 2
	}()
	wg.Wait()
	fmt.Println(n)
}
