package main

import (
	"fmt"
	"sync"
)

type task interface {
	process() int
	name() string
}

type email struct{ to, size int }
type image struct{ width, height int }

func (e email) process() int  { return e.to * e.size }
func (e email) name() string  { return "email" }
func (i *image) process() int { i.width++; return i.width * i.height }
func (i *image) name() string { return fmt.Sprintf("image %d", i.height) }

func describe(t task) string {
	switch it := t.(type) {
	case email:
		return fmt.Sprint("to ", it.to)
	case *image:
		return "an " + it.name()
	case nil:
		return "nothing"
	}
	return "?"
}

func work(tasks <-chan task, results chan<- int, wg *sync.WaitGroup) {
	defer wg.Done()
	for t := range tasks {
		fmt.Println(t.name())
		results <- t.process()
	}
}

func main() {
	tasks, results := make(chan task, 4), make(chan int, 4)
	list := []task{email{2, 3}, &image{3, 4}}
	var wg sync.WaitGroup
	wg.Add(2)
	go work(tasks, results, &wg)
	go work(tasks, results, &wg)
	for _, t := range list {
		tasks <- t
	}
	close(tasks)
	wg.Wait()
	fmt.Println(<-results + <-results)
	var none task
	fmt.Println(describe(list[0]), describe(list[1]), none == nil)
	if it, ok := list[1].(*image); ok {
		fmt.Println(it.width, describe(none))
	}
	none.process()
}
