package main

import (
	"fmt"
	"time"
)

func main() {
	ticker := time.NewTicker(time.Millisecond)
	defer ticker.Stop()
	done := make(chan bool)
	go func() {
		time.Sleep(3 * time.Millisecond)
		done <- true
	}()
	for {
		select {
		case <-done:
			fmt.Println("done")
			return
		case <-ticker.C:
		}
	}
}
