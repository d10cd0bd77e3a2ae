package main

import (
	"fmt"
	"sync"
)

func produce(id int, out chan<- int, wg *sync.WaitGroup) {
	defer wg.Done()
	for i := 0; i < 2; i++ {
		out <- id*10 + i
	}
}

func main() {
	out := make(chan int, 4)
	var wg sync.WaitGroup
	for id := 1; id <= 2; id++ {
		go func(id int) {
			wg.Add(1)
			produce(id, out, &wg)
		}(id)
	}
	wg.Wait()
	close(out)
	n := 0
	for range out {
		n++
	}
	fmt.Println(n)
}
