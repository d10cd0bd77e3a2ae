package main

import "fmt"

var names = []string{"ada", "bob", "eve"}

func greet(i int, out chan<- string) {
	out <- names[i]
}

func main() {
	out := make(chan string)
	for i := range names {
		go greet(i, out)
	}
	for range names {
		fmt.Printf("hello %s\n", <-out)
	}
}
