package main

func main() {
	go worker(1)
}
