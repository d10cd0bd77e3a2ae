package main

import "fmt"

func divmod(a, b int) (quotient, remainder int) {
	quotient = a / b
	remainder = a % b
	return
}

func minmax(a, b int) (int, int) {
	if a < b {
		return a, b
	}
	return b, a
}

func main() {
	q, r := divmod(17, 5)
	lo, hi := minmax(q, r)
	fmt.Println(q, r, lo, hi)
	c := make(chan int, 2)
	go func() {
		a, b := minmax(9, 4)
		c <- a
		c <- b
	}()
	fmt.Println(<-c, <-c)
}
