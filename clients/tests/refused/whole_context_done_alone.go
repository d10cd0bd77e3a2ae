package main

func main() {
	stop := make(chan struct{})
	close(stop)
	<-stop.Done()
	println(1)
}
