package main

func main() {
	total = 1
}
