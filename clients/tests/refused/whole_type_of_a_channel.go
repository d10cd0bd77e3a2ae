package main

type Semaphore chan struct{}

func main() {
	s := make(chan struct{}, 2)
	s <- struct{}{}
	println(len(s))
}
