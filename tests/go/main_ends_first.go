package main

// Nobody waits: a line comes or not.
func say(n int) {
	println(n)
}

func main() {
	go say(1)
	go say(2)
	println(0)
}
