package main

func produce(out chan int, from int) {
	for n := from; ; n++ {
		out <- n
	}
}

func pass(in, out chan int) {
	last := 0
	for v := range in {
		last = v
		out <- last + v
	}
}

func main() {
	first := make(chan int)
	last := make(chan int, 3)
	go produce(first, 0)
	go produce(first, 100)
	go pass(first, last)
	go pass(first, last)
	sum := 0
	for v := range last {
		sum += v
		println(sum)
	}
}
