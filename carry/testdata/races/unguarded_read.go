package main

import (
	"fmt"
	"sync"
)

type gauge struct {
	mu   sync.Mutex
	a, b int
}

func (g *gauge) move() {
	g.mu.Lock()
	defer g.mu.Unlock()
	g.a--
	g.b++
}

func main() {
	g := &gauge{a: 1}
	done := make(chan bool, 1)
	go func() {
		g.move()
		done <- true
	}()
	fmt.Println(g.a + g.b)
	<-done
}
