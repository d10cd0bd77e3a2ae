package main

import "fmt"

func main() {
	done := make(chan bool, 3)
	sum := make(chan int, 3)
	for i := 0; i < 3; i++ {
		i := i
		go func() {
			sum <- i
			done <- true
		}()
	}
	for i := 0; i < 3; i++ {
		<-done
	}
	fmt.Println(<-sum + <-sum + <-sum)
}
