package main

func generate(out chan<- int) {
	for i := 2; ; i++ {
		out <- i
	}
}

func filter(source <-chan int, sink chan<- int, prime int) {
	for i := range source {
		if i%prime != 0 {
			sink <- i
		}
	}
}

func sieve(count int) {
	numbers := make(chan int)
	go generate(numbers)
	for n := 0; n < count; n++ {
		prime := <-numbers
		println(prime)
		sifted := make(chan int)
		go filter(numbers, sifted, prime)
		numbers = sifted
	}
}

func main() {
	sieve(8)
}
