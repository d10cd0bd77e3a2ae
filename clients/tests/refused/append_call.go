package main

func main() {
	numbers := 1
	numbers = append(numbers, 2)
}
