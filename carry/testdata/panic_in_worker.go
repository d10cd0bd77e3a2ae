package main

import "fmt"

func divide(a, b int) int {
	if b == 0 {
		panic("division by zero in worker")
	}
	return a / b
}

func main() {
	in, out := make(chan int, 2), make(chan int, 2)
	in <- 2
	in <- 0
	close(in)
	go func() {
		for n := range in {
			out <- divide(10, n)
		}
		close(out)
	}()
	for n := range out {
		fmt.Println(n)
	}
}
