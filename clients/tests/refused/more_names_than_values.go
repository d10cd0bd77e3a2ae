package main

func main() {
	a, b := 1
}
