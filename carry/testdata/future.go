package main

import "fmt"

type Future struct {
	done  chan struct{}
	value int
	err   error
}

func Run(f func() (int, error)) *Future {
	future := &Future{done: make(chan struct{})}
	go func() {
		future.value, future.err = f()
		close(future.done)
	}()
	return future
}

func (f *Future) Get() (int, error) {
	<-f.done
	return f.value, f.err
}

func main() {
	f := Run(func() (int, error) { return 6 * 7, nil })
	value, err := f.Get()
	fmt.Println(value, err)
}
