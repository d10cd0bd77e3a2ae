package main

import (
	"fmt"
	"sync"
)

func main() {
	var wg sync.WaitGroup
	n, done := 0, make(chan bool, 1)
	go func() {
		wg.Add(1)
		n = 7
		wg.Done()
		done <- true
	}()
	wg.Wait()
	fmt.Println(n)
	<-done
}
