package main

import (
	"context"
	"fmt"
	"sync"
	"time"
)

func producer(ctx context.Context, name string, n int) <-chan int {
	out := make(chan int)
	go func() {
		defer close(out)
		for i := 0; i < n; i++ {
			select {
			case out <- i:
			case <-ctx.Done():
				fmt.Println(name, "cancelled")
				return
			}
		}
	}()
	return out
}

func fanIn(ctx context.Context, inputs ...<-chan int) <-chan int {
	out := make(chan int)
	var wg sync.WaitGroup
	wg.Add(len(inputs))
	for _, in := range inputs {
		go func(in <-chan int) {
			defer wg.Done()
			for v := range in {
				select {
				case out <- v:
				case <-ctx.Done():
					return
				}
			}
		}(in)
	}
	go func() {
		wg.Wait()
		close(out)
	}()
	return out
}

func main() {
	ctx, cancel := context.WithTimeout(context.Background(), 2*time.Second)
	defer cancel()
	a := producer(ctx, "a", 2)
	b := producer(ctx, "b", 2)
	count := 0
	for v := range fanIn(ctx, a, b) {
		fmt.Println("got", v)
		count++
		if count == 3 {
			cancel()
			break
		}
	}
	fmt.Println("count:", count, ctx.Err())
}
