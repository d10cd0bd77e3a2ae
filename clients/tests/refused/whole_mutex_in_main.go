package main

func main() {
	var mu sync.Mutex
	total := 0
	mu.Lock()
	total++
	mu.Unlock()
	println(total)
}
