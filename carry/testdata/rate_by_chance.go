package main

import (
	"fmt"
	"math/rand"
	"time"
)

func worker(id int, done chan<- int) {
	time.Sleep(time.Duration(rand.Intn(10)) * time.Millisecond)
	done <- id
}

func main() {
	done := make(chan int)
	for i := 1; i <= 2; i++ {
		go worker(i, done)
	}
	fmt.Println("first:", <-done)
	<-done
	fmt.Println("dice:", 1+rand.Intn(3) > 0)
}
