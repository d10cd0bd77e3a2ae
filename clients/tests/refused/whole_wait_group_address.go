package main

func work(wg chan struct{}) {
	wg <- struct{}{}
}

func main() {
	wg := &sync.WaitGroup{}
	go work(wg)
	<-wg
}
