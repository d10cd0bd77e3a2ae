package main

import (
	"fmt"
	"sync"
)

func main() {
	ready, value := false, 0
	var wg sync.WaitGroup
	wg.Add(1)
	go func() {
		defer wg.Done()
		value = 42
		ready = true
	}()
	if ready {
		fmt.Println("ready", value)
	} else {
		fmt.Println("not yet")
	}
	wg.Wait()
}
