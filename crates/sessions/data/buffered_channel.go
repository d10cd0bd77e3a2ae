package main

func main() {
	ch := make(chan int, 2)
	ch <- 1
	ch <- 2
	println(len(ch), cap(ch))
	println(<-ch)
	println(<-ch)
	ch <- 3
	ch <- 4
	ch <- 5
}
