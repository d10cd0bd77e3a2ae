package main

func main() {
	ok := true
	ok++
}
