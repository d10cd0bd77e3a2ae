package main

func main() {
	var f func(int) int
}
