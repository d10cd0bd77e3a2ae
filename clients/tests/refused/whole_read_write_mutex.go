package main

func main() {
	var table sync.RWMutex
	table.RLock()
	println(1)
	table.RUnlock()
}
