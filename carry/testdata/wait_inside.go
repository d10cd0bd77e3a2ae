package main

import (
	"fmt"
	"sync"
)

func main() {
	results := make(chan int)
	var wg sync.WaitGroup
	for i := 0; i < 2; i++ {
		wg.Add(1)
		go func(n int) {
			defer wg.Done()
			results <- n
		}(i)
	}
	wg.Wait() // nobody receives yet
	close(results)
	for r := range results {
		fmt.Println(r)
	}
}
