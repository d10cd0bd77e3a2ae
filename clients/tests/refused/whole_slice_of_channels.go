package main

func main() {
	var cells []chan int
	println(len(cells))
}
