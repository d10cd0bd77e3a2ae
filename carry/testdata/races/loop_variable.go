package main

import (
	"fmt"
)

func main() {
	var i int
	done := make(chan int, 2)
	for i = 0; i < 2; i++ {
		go func() { done <- i }()
	}
	fmt.Println(<-done + <-done)
}
