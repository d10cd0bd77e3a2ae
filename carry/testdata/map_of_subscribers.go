package main

import (
	"fmt"
	"sync"
)

type broker struct {
	mu          sync.Mutex
	subscribers map[string][]chan string
}

func (b *broker) subscribe(topic string) <-chan string {
	b.mu.Lock()
	defer b.mu.Unlock()
	ch := make(chan string, 1)
	b.subscribers[topic] = append(b.subscribers[topic], ch)
	return ch
}

func (b *broker) publish(topic, text string) {
	b.mu.Lock()
	defer b.mu.Unlock()
	for _, ch := range b.subscribers[topic] {
		ch <- text
	}
}

func main() {
	b := &broker{subscribers: make(map[string][]chan string)}
	first, second := b.subscribe("news"), b.subscribe("news")
	go b.publish("news", "rain")
	b.publish("sport", "win")
	fmt.Println(<-first, <-second, len(b.subscribers["news"]))
}
