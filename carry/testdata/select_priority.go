package main

import "fmt"

func main() {
	high, low := make(chan int, 1), make(chan int, 1)
	high <- 1
	low <- 2
	for i := 0; i < 2; i++ {
		select {
		case v := <-high:
			fmt.Println("high", v)
		default:
			select {
			case v := <-low:
				fmt.Println("low", v)
			default:
				fmt.Println("none")
			}
		}
	}
}
