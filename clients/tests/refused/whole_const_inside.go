package main

func main() {
	const size int = 3
	c := make(chan int, size)
	println(cap(c))
}
