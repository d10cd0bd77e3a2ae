package main

func send(out chan int, value int) {
	out <- value
}

func main() {
	left, right := make(chan int), make(chan int)
	go send(left, 1)
	go send(right, 2)
	select {
	case v := <-left:
		println("left", v)
	case v := <-right:
		println("right", v)
	}
}
