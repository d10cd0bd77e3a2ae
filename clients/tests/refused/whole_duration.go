package main

func work(pause time.Duration) {
	println(1)
}

func main() {
	work(3)
}
