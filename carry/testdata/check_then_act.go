package main

import (
	"fmt"
	"sync"
)

type Wallet struct {
	mu    sync.Mutex
	money int
}

func (w *Wallet) Money() int {
	w.mu.Lock()
	defer w.mu.Unlock()
	return w.money
}

func (w *Wallet) Spend(n int) {
	w.mu.Lock()
	defer w.mu.Unlock()
	w.money -= n
}

func main() {
	w := &Wallet{money: 10}
	var wg sync.WaitGroup
	for i := 0; i < 2; i++ {
		wg.Add(1)
		go func() {
			defer wg.Done()
			if w.Money() >= 10 {
				w.Spend(10)
			}
		}()
	}
	wg.Wait()
	fmt.Println("money", w.Money())
}
