package main

import (
	"fmt"
	"sync"
)

var mu sync.RWMutex
var value int

func upgrade(done chan bool) {
	mu.RLock()
	if value == 0 {
		mu.Lock() // waits for all readers, itself among them
		value = 1
		mu.Unlock()
	}
	mu.RUnlock()
	done <- true
}

func main() {
	done := make(chan bool)
	go upgrade(done)
	<-done
	fmt.Println(value)
}
