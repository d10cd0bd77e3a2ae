package main

func main() {
	ready := make(chan struct{}, 1)
	ready.Broadcast()
	println(1)
}
