package main

func main() {
	var ages map[int]int
}
