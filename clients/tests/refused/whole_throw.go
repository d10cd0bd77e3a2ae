package main

func main() {
	n := 1
	throw n
}
