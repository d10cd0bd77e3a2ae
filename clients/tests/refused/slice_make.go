package main

func main() {
	numbers := make([]int, 10)
}
