package main

func sum(numbers []int) int {
	return 0
}

func main() {
}
