package main

func main() {
	c := make(chan int)
	go close(c)
}
