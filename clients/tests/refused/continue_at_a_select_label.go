package main

func main() {
	c := make(chan int)
	poll:
		select {
		case <-c:
			continue poll
		}
}
