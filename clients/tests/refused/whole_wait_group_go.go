package main

func main() {
	wg := make(chan struct{})
	wg.Go(func() { println(1) })
	<-wg
}
