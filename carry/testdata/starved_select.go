package main

import (
	"fmt"
	"time"
)

type Event struct {
	id   int
	kind string
}

func main() {
	events := make(chan Event, 3)
	quit := make(chan struct{})
	for i := 0; i < 3; i++ {
		events <- Event{i, "tick"}
	}
	go func() {
		time.Sleep(time.Microsecond)
		close(quit)
	}()
	handled := 0
	for {
		select {
		case e := <-events:
			handled++
			if e.id == 2 {
				fmt.Println("all handled:", handled, e.kind)
				return
			}
		case <-quit:
			fmt.Println("quit early")
			return
		}
	}
}
