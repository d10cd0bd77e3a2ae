package main

func main() {
	mu := &sync.Mutex{}
	mu.Lock()
	println(1)
	mu.Unlock()
}
