package main

import (
	"fmt"
	"os"
	"time"
)

func main() {
	start := time.Now()
	called := make(chan string)
	time.AfterFunc(time.Millisecond, func() { called <- "called" })
	fmt.Println(<-called)
	ticker := time.NewTicker(time.Millisecond)
	for n := 0; n < 2; n++ {
		at := <-ticker.C
		_ = at
		fmt.Println("tick", n)
	}
	ticker.Stop()
	stopped := time.AfterFunc(time.Hour, func() { fmt.Println("too early") })
	if !stopped.Stop() {
		fmt.Println("it was called")
	}
	_ = time.Since(start)
	fmt.Fprintln(os.Stdout, "the end")
}
