package main

import (
	"fmt"
	"sync"
)

// The WaitGroup is handed on by its value: each worker is done with a copy, and main waits for ever.
func worker(id int, wg sync.WaitGroup) {
	defer wg.Done()
	fmt.Println("worker", id)
}

func main() {
	var wg sync.WaitGroup
	for i := 0; i < 2; i++ {
		wg.Add(1)
		go worker(i, wg)
	}
	wg.Wait()
	fmt.Println("all done")
}
