package main

func work(id int, in, out chan int) {
	for v := range in {
		out <- v * id
	}
}

func main() {
	in, out := make(chan int), make(chan int, 100)
	for id := 0; id < 10000; id++ {
		go work(id, in, out)
	}
	sum := 0
	for i := 0; i < 40000; i++ {
		in <- i
		sum += <-out
	}
	println(sum)
	close(in)
}
