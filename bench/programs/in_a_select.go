package main

func produce(out chan int, n int) {
	for i := 0; i < n; i++ {
		out <- i
	}
}

func main() {
	plus, minus := make(chan int), make(chan int, 4)
	n := 40000
	go produce(plus, n)
	go produce(minus, n)
	sum := 0
	for i := 0; i < 2*n; i++ {
		select {
		case v := <-plus:
			sum += v
		case v := <-minus:
			sum -= v
		}
	}
	println(sum)
}
