package main

func main() {
	work(1)
}
