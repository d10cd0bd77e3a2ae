package main

func main() {
	done := make(chan struct{}, 1)
	done <- true
	<-done
}
