package main

func say(n int) {
	println(n)
}

func main() {
	say("hello")
}
