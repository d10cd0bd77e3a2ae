package main

func main() {
	mu := make(chan struct{}, 1)
	if mu.TryLock() {
		println(1)
	}
}
