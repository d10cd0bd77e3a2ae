package main

import (
	"context"
	"fmt"
	"time"
)

func main() {
	ctx, cancel := context.WithTimeout(context.Background(), 50*time.Millisecond)
	defer cancel()
	answer := make(chan int)
	go func() {
		time.Sleep(10 * time.Millisecond)
		answer <- 42
	}()
	select {
	case n := <-answer:
		fmt.Println("answer", n)
	case <-ctx.Done():
		fmt.Println(ctx.Err())
	}
}
