package main

import (
	"fmt"
	"time"
)

func say(s string, done chan bool) {
	for i := 0; i < 2; i++ {
		time.Sleep(100 * time.Millisecond)
		fmt.Println(s)
	}
	done <- true
}

func main() {
	done := make(chan bool)
	go say("world", done)
	say2("hello")
	<-done
}

func say2(s string) {
	for i := 0; i < 2; i++ {
		fmt.Println(s)
	}
}
