package main

func work(out chan<- int) {
}

func pass(in <-chan int) {
	work(in)
}

func main() {
}
