package main

import (
	"fmt"
	"time"
)

func main() {
	boom := time.After(500 * time.Millisecond)
	for turns := 0; turns < 3; turns++ {
		select {
		case <-boom:
			fmt.Println("BOOM!")
			return
		default:
			fmt.Println("    .")
			time.Sleep(50 * time.Millisecond)
		}
	}
}
