package main

func work(done chan bool) {
	done <- true
}

func main() {
	c := make(chan int)
	go work(c)
}
