package main

func main() {
	c := make(chan int)
	len(c)
}
