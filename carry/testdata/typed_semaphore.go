package main

import "fmt"

type Semaphore chan struct{}

func (s Semaphore) Acquire() { s <- struct{}{} }
func (s Semaphore) Release() { <-s }

func main() {
	s := make(Semaphore, 1)
	done := make(chan int)
	for i := range 2 {
		go func() {
			s.Acquire()
			defer s.Release()
			done <- i
		}()
	}
	fmt.Println(<-done + <-done)
}
