package main

func work(c chan int) {
	c <- 1
}

func main() {
	c := chan int
	go work(c)
	println(<-c)
}
