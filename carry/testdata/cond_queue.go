package main

import (
	"fmt"
	"sync"
)

type Queue struct {
	mu    sync.Mutex
	cond  *sync.Cond
	items int
}

func NewQueue() *Queue {
	q := &Queue{}
	q.cond = sync.NewCond(&q.mu)
	return q
}

func (q *Queue) Put() {
	q.mu.Lock()
	q.items++
	q.mu.Unlock()
	q.cond.Signal()
}

func (q *Queue) Get() {
	q.mu.Lock()
	for q.items == 0 {
		q.cond.Wait()
	}
	q.items--
	q.mu.Unlock()
}

func main() {
	q := NewQueue()
	done := make(chan bool)
	go func() {
		q.Get()
		done <- true
	}()
	q.Put()
	<-done
	fmt.Println("left", q.items)
}
