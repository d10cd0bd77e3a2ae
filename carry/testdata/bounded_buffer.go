package main

import (
	"fmt"
	"sync"
)

type Buffer struct {
	mu              sync.Mutex
	notFull         *sync.Cond
	notEmpty        *sync.Cond
	items           [2]int
	count, from, to int
}

func NewBuffer() *Buffer {
	b := &Buffer{}
	b.notFull = sync.NewCond(&b.mu)
	b.notEmpty = sync.NewCond(&b.mu)
	return b
}

func (b *Buffer) Put(n int) {
	b.mu.Lock()
	defer b.mu.Unlock()
	for b.count == len(b.items) {
		b.notFull.Wait()
	}
	b.items[b.to] = n
	b.to = (b.to + 1) % len(b.items)
	b.count++
	b.notEmpty.Signal()
}

func (b *Buffer) Get() int {
	b.mu.Lock()
	defer b.mu.Unlock()
	for b.count == 0 {
		b.notEmpty.Wait()
	}
	n := b.items[b.from]
	b.from = (b.from + 1) % len(b.items)
	b.count--
	b.notFull.Signal()
	return n
}

func main() {
	b := NewBuffer()
	go func() {
		for i := 1; i <= 3; i++ {
			b.Put(i)
		}
	}()
	fmt.Println(b.Get(), b.Get(), b.Get())
}
