package main

import "fmt"

func main() {
	seen := map[int]bool{}
	done := make(chan bool)
	for i := 0; i < 2; i++ {
		go func(n int) {
			seen[n] = true
			done <- true
		}(i)
	}
	<-done
	<-done
	fmt.Println(len(seen))
}
