package main

func main() {
	type number int
}
