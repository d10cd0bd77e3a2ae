package main

func main() {
	c := make(chan int)
	for v in c {
	}
}
