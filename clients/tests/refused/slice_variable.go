package main

func main() {
	var numbers []int
}
