package main

import "fmt"

type Level int

const (
	Low Level = iota
	High
)

func (l Level) String() string {
	if l == Low {
		return "low"
	}
	return "high"
}

type Failure struct{ code int }

func (f *Failure) Error() string { return "it failed" }

func main() {
	levels := make(chan Level)
	go func() {
		levels <- Low
		levels <- High
	}()
	first := <-levels
	fmt.Println(first, <-levels, High)
	fmt.Printf("%v %d %s\n", first, first, High)
	failure := &Failure{3}
	fmt.Println(failure, failure.code)
}
