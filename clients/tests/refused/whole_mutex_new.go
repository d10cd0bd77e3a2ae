package main

func main() {
	mu := new(sync.Mutex)
	mu.Lock()
	println(1)
	mu.Unlock()
}
