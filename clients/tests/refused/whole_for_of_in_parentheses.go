package main

func main() {
	c := make(chan int)
	close(c)
	for (x of c) {
		println(x)
	}
}
