package main

func main() {
	c := make(chan int)
	ok := true
	for ok = range c {
	}
}
