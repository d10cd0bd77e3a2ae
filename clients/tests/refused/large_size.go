package main

func main() {
	c := make(chan int, 9223372036854775808)
}
