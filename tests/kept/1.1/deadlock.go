package main

func transfer(from, to chan int, amount int, done chan bool) {
	x := <-from
	y := <-to
	from <- x - amount
	to <- y + amount
	done <- true
}

func main() {
	a, b := make(chan int, 1), make(chan int, 1)
	a <- 100
	b <- 100
	done := make(chan bool)
	go transfer(a, b, 10, done)
	go transfer(b, a, 20, done)
	<-done
	<-done
	println(<-a, <-b)
}

// commands of Rewind:
// run 100
// back g0.2#1
// step g0.1
// break 12
// run 3
// undo
