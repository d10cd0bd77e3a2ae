package main

// At most two at once; how many are seen inside is open.
func work(room chan struct{}, seen chan int) {
	room <- struct{}{}
	seen <- len(room)
	<-room
}

func main() {
	room, seen := make(chan struct{}, 2), make(chan int)
	go work(room, seen)
	go work(room, seen)
	go work(room, seen)
	println(<-seen, <-seen, <-seen)
}
