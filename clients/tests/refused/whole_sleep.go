package main

func work(done chan bool) {
	done <- true
}

func main() {
	done := make(chan bool)
	go work(done)
	time.Sleep(100 * time.Millisecond)
	println(<-done)
}
