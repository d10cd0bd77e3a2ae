package main

func main() {
	var m sync.Mutex
	m.Lock()
}
