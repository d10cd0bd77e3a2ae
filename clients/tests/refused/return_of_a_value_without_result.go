package main

func work() {
	return 1
}

func main() {
}
