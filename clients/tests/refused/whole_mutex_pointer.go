package main

func add(mu *sync.Mutex, n int) {
	mu.Lock()
	println(n)
	mu.Unlock()
}

func main() {
	go add(3)
}
