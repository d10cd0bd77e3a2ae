package main

func f(c chan<- int) {
	println(<-c)
}

func main() {
}
