package main

import (
	"fmt"
	"sync"
)

type config struct{ size int }

var shared *config
var made int

func get() *config {
	if shared == nil {
		made++
		shared = &config{size: 3}
	}
	return shared
}

func main() {
	var wg sync.WaitGroup
	for i := 0; i < 2; i++ {
		wg.Add(1)
		go func() {
			defer wg.Done()
			get().size++
		}()
	}
	wg.Wait()
	fmt.Println(made, get().size)
}
