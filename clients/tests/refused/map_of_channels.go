package main

func main() {
	var m map[chan int]bool
}
