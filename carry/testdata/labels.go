package main

import "fmt"

func main() {
	c := make(chan int)
	go func() {
		for i := 0; i < 5; i++ {
			c <- i
		}
	}()
	sum := 0
loop:
	for {
		switch v := <-c; {
		case v == 3:
			break loop
		case v%2 == 0:
			sum += v
			continue loop
		default:
			sum += 10 * v
		}
	}
	fmt.Println(sum)
}
