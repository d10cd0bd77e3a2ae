package main

func f(c <-chan int) {
	select {
	case c <- 1:
	}
}

func main() {
}
