package main

func add(mu sync.Mutex, done chan bool) {
	mu.Lock()
	mu.Unlock()
	done <- true
}

func main() {
	done := make(chan bool)
	go add(done)
	<-done
}
