package main

import (
	"fmt"
	"sync"
)

func main() {
	x, y := 1, 2
	var wg sync.WaitGroup
	for i := 0; i < 2; i++ {
		wg.Add(1)
		go func() {
			defer wg.Done()
			x, y = y, x
		}()
	}
	wg.Wait()
	fmt.Println(x, y)
}
