package main

func main() {
	m.Unlock()
}
