package main

func work(mu chan struct{}) {
	mu <- struct{}{}
	defer mu.Unlock()
	println(1)
}

func main() {
	mu := make(chan struct{}, 1)
	work(mu)
}
