package main

import (
	"fmt"
	"sync"
)

type door struct {
	mu   sync.Mutex
	open int
}

func pass(d *door, locks bool, times int) int {
	if locks {
		own := d
		own.mu.Lock()
		defer own.mu.Unlock()
		defer fmt.Println("passed", times)
	}
	for i := 0; i < times; i++ {
		defer fmt.Println("turn")
	}
	if times == 2 {
		twice := times * 2
		defer func() { fmt.Println("closure", twice) }()
		return 7
	}
	d.open++
	return d.open
}

func main() {
	d := &door{}
	fmt.Println(pass(d, true, 1))
	fmt.Println(pass(d, true, 2))
	fmt.Println(pass(d, false, 0))
	defer fmt.Println("before the panic ends the program")
	if d.open == 2 {
		panic("the door is open")
	}
}
