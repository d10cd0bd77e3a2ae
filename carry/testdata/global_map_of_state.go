package main

import (
	"fmt"
	"sync"
)

var (
	mu    sync.Mutex
	seen  [4]bool
	first = -1
)

func visit(n int) bool {
	mu.Lock()
	defer mu.Unlock()
	if seen[n] {
		return false
	}
	seen[n] = true
	if first < 0 {
		first = n
	}
	return true
}

func main() {
	count := make(chan int, 4)
	for _, n := range []int{1, 2, 1, 2} {
		go func(n int) {
			if visit(n) {
				count <- 1
			} else {
				count <- 0
			}
		}(n)
	}
	total := 0
	for i := 0; i < 4; i++ {
		total += <-count
	}
	fmt.Println(total)
}
