package main

import "fmt"

func node(left <-chan int, right chan<- int) {
	right <- 1 + <-left
}

func main() {
	const n = 5
	first := make(chan int)
	right := first
	left := first
	for i := 0; i < n; i++ {
		right = make(chan int)
		go node(right, left)
		left = right
	}
	go func(c chan int) { c <- 1 }(right)
	fmt.Println(<-first)
}
