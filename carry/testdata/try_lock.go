package main

import (
	"fmt"
	"sync"
)

func main() {
	var mu sync.Mutex
	got := make(chan bool, 2)
	for i := 0; i < 2; i++ {
		go func() {
			got <- mu.TryLock()
		}()
	}
	a, b := <-got, <-got
	fmt.Println(a != b)
}
