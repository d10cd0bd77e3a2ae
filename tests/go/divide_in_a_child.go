package main

// A panic of a child ends all, before or after the lines of others.
func divide(n int, c chan int) {
	c <- 10 / n
}

func main() {
	c := make(chan int, 3)
	go divide(5, c)
	go divide(0, c)
	println(<-c)
	println(<-c)
}
