package main

import (
	"fmt"
	"sync"
)

type Config struct {
	once sync.Once
	port int
	name string
}

var config Config

func load() *Config {
	config.once.Do(func() {
		config.port = 8080
		config.name = "main"
	})
	return &config
}

func main() {
	var wg sync.WaitGroup
	ports := make(chan int, 2)
	for range [2]struct{}{} {
		wg.Add(1)
		go func() {
			defer wg.Done()
			ports <- load().port
		}()
	}
	wg.Wait()
	fmt.Println(<-ports == <-ports, load().name)
}
