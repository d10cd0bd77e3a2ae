package main

import "fmt"

type Phase int

const (
	Red Phase = iota
	Green
	Amber
)

var names = [...]string{"red", "green", "amber"}

func (p Phase) String() string { return names[p] }

func light(phases chan<- Phase, steps int) {
	defer close(phases)
	phase := Red
	for i := 0; i < steps; i++ {
		phases <- phase
		phase = (phase + 1) % 3
	}
}

func main() {
	phases := make(chan Phase)
	go light(phases, 4)
	counts := [3]int{}
	for p := range phases {
		counts[p]++
		fmt.Println(p.String())
	}
	fmt.Println(counts[Red], counts[Green], counts[Amber])
}
