package main

func work(i int, wg chan struct{}) {
	println(i)
	wg <- struct{}{}
}

func main() {
	wg := make(chan struct{})
	for i := 0; i < 3; i++ {
		wg.Add(1)
		go work(i, wg)
	}
	<-wg
}
