package main

func work(wg chan struct{}) {
	wg <- struct{}{}
}

func main() {
	wg := new(sync.WaitGroup)
	go work(wg)
	<-wg
}
