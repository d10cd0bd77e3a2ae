package main

import (
	"fmt"
	"sync"
)

type Hub struct {
	mu   sync.Mutex
	subs [2]chan int
	n    int
}

func (h *Hub) Subscribe() <-chan int {
	h.mu.Lock()
	defer h.mu.Unlock()
	c := make(chan int, 1)
	h.subs[h.n] = c
	h.n++
	return c
}

func (h *Hub) Publish(v int) {
	h.mu.Lock()
	defer h.mu.Unlock()
	for i := 0; i < h.n; i++ {
		h.subs[i] <- v
	}
}

func main() {
	var hub Hub
	a, b := hub.Subscribe(), hub.Subscribe()
	go hub.Publish(5)
	fmt.Println(<-a, <-b)
}
