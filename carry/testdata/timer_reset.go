package main

import (
	"fmt"
	"time"
)

func main() {
	timer := time.NewTimer(time.Hour)
	if timer.Stop() {
		timer.Reset(time.Millisecond)
		<-timer.C
		fmt.Println("fired again")
	} else {
		<-timer.C
		fmt.Println("fired at once")
	}
}
