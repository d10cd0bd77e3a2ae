package main

// Who closes second panics.
func end(c chan int, name int) {
	println("closes", name)
	close(c)
}

func main() {
	c := make(chan int)
	go end(c, 1)
	go end(c, 2)
	<-c
	println("closed")
	<-make(chan int)
}
