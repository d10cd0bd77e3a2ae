package main

func double(in, out chan int, n int) {
	for i := 0; i < n; i++ {
		v := <-in
		out <- v * 2
	}
}

func main() {
	in, out := make(chan int), make(chan int)
	n := 50000
	go double(in, out, n)
	sum := 0
	for i := 0; i < n; i++ {
		in <- i
		sum += <-out
	}
	println(sum)
}
