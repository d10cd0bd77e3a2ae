package main

func main() {
	c := make(chan int)
	n, ok := 1, 2
	n, ok = <-c
}
