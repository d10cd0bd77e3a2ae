package main

func main() {
	mu := make(chan struct{}, 1)
	mu.Lock()
	println(1)
	mu.Unlock()
}
