package main

func main() {
	c := make(chan int)
	if c {
	}
}
