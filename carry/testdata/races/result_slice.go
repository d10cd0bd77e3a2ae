package main

import (
	"fmt"
	"sync"
)

func main() {
	results := []int{}
	var wg sync.WaitGroup
	for i := 1; i <= 2; i++ {
		wg.Add(1)
		go func(i int) {
			defer wg.Done()
			results = append(results, i)
		}(i)
	}
	wg.Wait()
	fmt.Println(len(results))
}
