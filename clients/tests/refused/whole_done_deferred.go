package main

func work(i int, wg chan struct{}) {
	defer wg.Done()
	println(i)
}

func main() {
	wg := make(chan struct{})
	go work(1, wg)
	<-wg
}
