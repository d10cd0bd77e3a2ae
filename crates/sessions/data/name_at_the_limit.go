package main

func child() {
	go child()
}

func main() {
	go child()
	select {}
}
