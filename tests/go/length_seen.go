package main

// The length of a buffer, looked at while it is filled.
func fill(c chan int) {
	c <- 1
	c <- 2
	c <- 3
}

func main() {
	c := make(chan int, 3)
	go fill(c)
	println(len(c) < 4)
	n := len(c)
	<-c
	println(n, cap(c))
}
