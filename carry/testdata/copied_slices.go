package main

import (
	"fmt"
	"sync"
)

type list struct {
	mu    sync.Mutex
	items []int
}

func (l *list) add(n int) {
	l.mu.Lock()
	defer l.mu.Unlock()
	l.items = append(l.items, n)
}

func (l *list) all() []int {
	l.mu.Lock()
	defer l.mu.Unlock()
	found := make([]int, len(l.items))
	copy(found, l.items)
	return found
}

func main() {
	l := &list{}
	var wg sync.WaitGroup
	for i := 0; i < 3; i++ {
		wg.Add(1)
		go func(n int) {
			defer wg.Done()
			l.add(n * n)
		}(i)
	}
	wg.Wait()
	before := l.all()
	l.add(9)
	sum := 0
	for _, n := range before {
		sum += n
	}
	before[0] = 100
	fmt.Println(sum, len(before), len(l.all()), l.all()[0] == 100)
	first := [2]int{7, 8}
	fmt.Println(copy(before, first[:]), before[0], before[1])
}
