package main

func fibonacci(c, quit chan int) {
	x, y := 0, 1
	for {
		select {
		case c <- x:
			x, y = y, x+y
		case <-quit:
			println("quit")
			return
		}
	}
}

func read(c, quit chan int) {
	for i := 0; i < 10; i++ {
		println(<-c)
	}
	quit <- 0
}

func main() {
	c, quit := make(chan int), make(chan int)
	go read(c, quit)
	fibonacci(c, quit)
}
