package main

import (
	"fmt"
	"time"
)

func search(found chan string) {
	time.Sleep(time.Millisecond)
	found <- "hit"
}

func main() {
	found := make(chan string)
	go search(found)
	select {
	case text := <-found:
		fmt.Println("found", text)
	case <-time.After(time.Millisecond):
		fmt.Println("timed out")
	}
}
