package main

import "fmt"

type State int

const (
	Idle State = iota
	Running
	Done
)

func (s State) next() State {
	switch s {
	case Idle:
		return Running
	case Running:
		return Done
	}
	return s
}

func name(s State) string {
	switch s {
	case Idle:
		return "idle"
	case Running:
		return "running"
	default:
		return "done"
	}
}

func main() {
	states := make(chan State, 3)
	go func() {
		defer close(states)
		for s := Idle; ; s = s.next() {
			states <- s
			if s == Done {
				break
			}
		}
	}()
	for s := range states {
		fmt.Println(name(s))
	}
}
