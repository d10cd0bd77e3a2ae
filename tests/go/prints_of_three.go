package main

// Three goroutines print, and the end of `main` cuts them off or not.
func say(name int, done chan struct{}) {
	println("in", name)
	done <- struct{}{}
	println("out", name)
}

func main() {
	done := make(chan struct{}, 3)
	go say(1, done)
	go say(2, done)
	go say(3, done)
	<-done
	<-done
	println("main")
}
