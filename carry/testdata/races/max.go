package main

import (
	"fmt"
	"sync"
)

func main() {
	most := 0
	var wg sync.WaitGroup
	for _, n := range []int{3, 5} {
		wg.Add(1)
		go func(n int) {
			defer wg.Done()
			if n > most {
				most = n
			}
		}(n)
	}
	wg.Wait()
	fmt.Println(most)
}
