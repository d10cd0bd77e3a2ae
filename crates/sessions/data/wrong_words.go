package main

func main() {
	x := 1
	c := make(chan int, 1)
	c <- x
	println(<-c)
}
