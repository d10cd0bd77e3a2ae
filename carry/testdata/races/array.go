package main

import (
	"fmt"
	"sync"
)

func main() {
	var hits [2]int
	var wg sync.WaitGroup
	for i := 0; i < 2; i++ {
		wg.Add(1)
		go func() {
			defer wg.Done()
			hits[0]++
		}()
	}
	wg.Wait()
	fmt.Println(hits[0], hits[1])
}
