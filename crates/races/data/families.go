package main

func child(back chan int, n int) {
	own := make(chan int, 1)
	own <- n * n
	close(own)
	v, open := <-own
	_, more := <-own
	if open && !more {
		back <- v
	}
}

func parent(told chan int, many int) {
	back := make(chan int)
	for n := 0; n < many; n++ {
		go child(back, n)
	}
	sum := 0
	for n := 0; n < many; n++ {
		sum += <-back
	}
	println(sum)
	told <- sum
}

func main() {
	for round := 1; round <= 12; round++ {
		told := make(chan int, round%2)
		go parent(told, 2)
		println(round, <-told)
	}
	for {
	}
}
