package main

func main() {
	numbers := 1
	println(numbers[0])
}
