package main

import (
	"fmt"
	"time"
)

type timeoutError struct {
	op    string
	after int
}

func (e *timeoutError) Error() string {
	return fmt.Sprintf("%s timed out after %dms", e.op, e.after)
}

type closedError struct{ code int }

func (e closedError) Error() string { return fmt.Sprint("closed ", e.code) }

func fetch(op string, answers <-chan int) (int, error) {
	select {
	case n, ok := <-answers:
		if !ok {
			return 0, closedError{7}
		}
		return n, nil
	case <-time.After(50 * time.Millisecond):
		return 0, &timeoutError{op, 50}
	}
}

func main() {
	answers := make(chan int, 1)
	answers <- 3
	close(answers)
	n, err := fetch("read", answers)
	fmt.Println(n, err)
	if _, err = fetch("write", answers); err != nil {
		fmt.Println("failed:", err)
	}
}
