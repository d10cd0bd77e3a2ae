package main

import (
	"fmt"
	"sync"
)

var total int

func add(n int, wg *sync.WaitGroup) {
	defer wg.Done()
	total += n
}

func main() {
	var wg sync.WaitGroup
	wg.Add(2)
	go add(1, &wg)
	go add(2, &wg)
	wg.Wait()
	fmt.Println(total)
}
