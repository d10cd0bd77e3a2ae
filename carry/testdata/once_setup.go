package main

import (
	"fmt"
	"sync"
)

var (
	once   sync.Once
	config int
)

func setup() {
	fmt.Println("setup")
	config = 7
}

func use(id int, wg *sync.WaitGroup) {
	defer wg.Done()
	once.Do(setup)
	if config != 7 {
		fmt.Println("not set up")
	}
}

func main() {
	var wg sync.WaitGroup
	for id := 0; id < 3; id++ {
		wg.Add(1)
		go use(id, &wg)
	}
	wg.Wait()
	fmt.Println("config", config)
}
