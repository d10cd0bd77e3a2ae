package main

func main() {
	mu := make(chan struct{}, 1)
	mu <- struct{}{}
	println(1)
	mu.Unlock()
}
