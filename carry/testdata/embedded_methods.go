package main

import (
	"fmt"
	"sync"
)

type Base struct{ id int }

func (b *Base) ID() int     { return b.id }
func (b *Base) SetID(n int) { b.id = n }

type Guarded struct {
	sync.Mutex
	Base
	uses int
}

func (g *Guarded) use(n int, wg *sync.WaitGroup) {
	defer wg.Done()
	g.Lock()
	defer g.Unlock()
	g.SetID(g.ID() + n)
	g.uses++
}

func main() {
	var g Guarded
	var wg sync.WaitGroup
	wg.Add(2)
	go g.use(1, &wg)
	go g.use(2, &wg)
	wg.Wait()
	fmt.Println(g.ID(), g.id, g.uses)
}
