package main

// Both cases are ready, and either is taken.
func main() {
	a, b := make(chan int, 1), make(chan int, 1)
	a <- 1
	b <- 2
	for i := 0; i < 2; i++ {
		select {
		case v := <-a:
			println("a", v)
		case v := <-b:
			println("b", v)
		}
	}
}
