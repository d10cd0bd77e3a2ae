package main

func main() {
	cache := make(chan struct{}, 1)
	cache.RLock()
	println(1)
	cache.RUnlock()
}
