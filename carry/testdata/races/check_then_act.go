package main

import (
	"fmt"
	"sync"
)

func main() {
	tickets, sold := 1, make(chan int, 2)
	var wg sync.WaitGroup
	for id := 1; id <= 2; id++ {
		wg.Add(1)
		go func(id int) {
			defer wg.Done()
			if tickets > 0 {
				tickets--
				sold <- id
			}
		}(id)
	}
	wg.Wait()
	fmt.Println(len(sold), tickets)
}
