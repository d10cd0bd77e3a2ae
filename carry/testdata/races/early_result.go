package main

import (
	"fmt"
)

func main() {
	sum := 0
	done := make(chan bool, 1)
	go func() {
		for i := 1; i <= 3; i++ {
			sum += i
		}
		done <- true
	}()
	fmt.Println(sum)
	<-done
}
