package main

func work(int) {
	println(1)
}

func main() {
	work(1)
}
