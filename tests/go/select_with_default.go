package main

// A default is taken as long as nothing is ready.
func send(c chan int, done chan struct{}) {
	c <- 1
	done <- struct{}{}
}

func main() {
	c, done := make(chan int, 1), make(chan struct{}, 1)
	go send(c, done)
	select {
	case v := <-c:
		println("got", v)
	default:
		println("nothing yet")
		<-done
		println("then", <-c)
	}
}
