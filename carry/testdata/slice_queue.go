package main

import (
	"fmt"
	"sync"
)

// Queue is a bounded queue whose items lie in a slice.
type Queue struct {
	mu    sync.Mutex
	cond  *sync.Cond
	items []int
	max   int
}

func NewQueue(max int) *Queue {
	q := &Queue{max: max}
	q.cond = sync.NewCond(&q.mu)
	return q
}

func (q *Queue) Put(v int) {
	q.mu.Lock()
	defer q.mu.Unlock()
	for len(q.items) == q.max {
		q.cond.Wait()
	}
	q.items = append(q.items, v)
	q.cond.Broadcast()
}

func (q *Queue) Get() int {
	q.mu.Lock()
	defer q.mu.Unlock()
	for len(q.items) == 0 {
		q.cond.Wait()
	}
	v := q.items[0]
	q.items = q.items[1:]
	q.cond.Broadcast()
	return v
}

func main() {
	q := NewQueue(1)
	go func() {
		for i := 1; i <= 3; i++ {
			q.Put(i)
		}
	}()
	fmt.Println(q.Get(), q.Get(), q.Get())
	stack := []int{1, 2}
	stack = append(stack, 3)
	top := stack[len(stack)-1]
	stack = stack[:len(stack)-1]
	fmt.Println(top, len(stack))
}
