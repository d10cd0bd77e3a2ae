package main

import "fmt"

type request struct {
	n     int
	reply chan int
}

func server(requests chan request) {
	total := 0
	for r := range requests {
		total += r.n
		r.reply <- total
	}
}

func main() {
	requests := make(chan request)
	go server(requests)
	for i := 1; i <= 3; i++ {
		r := request{i, make(chan int)}
		requests <- r
		fmt.Println(<-r.reply)
	}
}
