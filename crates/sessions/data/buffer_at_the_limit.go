package main

func main() {
	c := make(chan int, 1000000)
	for i := 0; i < 3; i++ {
		c <- i
	}
	println(len(c), cap(c), <-c)
}
