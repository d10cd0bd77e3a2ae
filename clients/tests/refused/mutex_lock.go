package main

func main() {
	m.Lock()
}
