package main

var counter int

func main() {
	counter++
}
