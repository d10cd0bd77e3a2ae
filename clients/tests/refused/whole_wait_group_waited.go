package main

func work(i int, wg chan struct{}) {
	println(i)
	wg <- struct{}{}
}

func main() {
	wg := make(chan struct{})
	go work(1, wg)
	wg.Wait()
}
