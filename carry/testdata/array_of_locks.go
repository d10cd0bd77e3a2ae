package main

import (
	"fmt"
	"sync"
)

func main() {
	var mutexes [3]sync.Mutex
	locks := make([]sync.Mutex, 2)
	counts := [3]int{}
	var wg sync.WaitGroup
	for i := 0; i < 3; i++ {
		wg.Add(1)
		go func(id int) {
			defer wg.Done()
			mutexes[id].Lock()
			counts[id] += id
			mutexes[id].Unlock()
			locks[id%2].Lock()
			defer locks[id%2].Unlock()
		}(i)
	}
	wg.Wait()
	total := 0
	for _, c := range counts {
		total += c
	}
	fmt.Println(total)
	fmt.Println()
	fmt.Println("")
}
