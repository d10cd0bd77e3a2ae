package main

func main() {
	numbers := 1
	numbers[0] = 2
}
