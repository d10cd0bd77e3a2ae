package main

func produce(out chan int, n int) {
	for i := 0; i < n; i++ {
		out <- i
	}
}

func main() {
	numbers := make(chan int)
	go produce(numbers, 3)
	println(<-numbers)
	close(numbers)
	v, open := <-numbers
	println(v, open)
}
