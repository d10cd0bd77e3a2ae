package main

func look(mu chan struct{}) {
	mu.RLock()
	println(1)
	<-mu
}

func main() {
	look(make(chan struct{}, 1))
}
