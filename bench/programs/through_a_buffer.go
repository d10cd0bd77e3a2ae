package main

func produce(out chan int, n int) {
	for i := 0; i < n; i++ {
		out <- i
	}
	close(out)
}

func main() {
	numbers := make(chan int, 16)
	go produce(numbers, 100000)
	sum := 0
	for v := range numbers {
		sum += v
	}
	println(sum)
}
