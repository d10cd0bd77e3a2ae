package main

func main() {
	var c chan int = null
}
