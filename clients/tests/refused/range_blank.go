package main

func main() {
	c := make(chan int)
	for _ := range c {
	}
}
