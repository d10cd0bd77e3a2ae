package main

import (
	"fmt"
)

type box struct{ value int }

func main() {
	var current *box
	other := &box{value: 1}
	current = other
	done := make(chan bool, 1)
	go func() {
		other.value = 2
		done <- true
	}()
	fmt.Println(current.value)
	<-done
}
