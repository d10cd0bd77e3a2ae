package main

func main() {
	var numbers [3]int
}
