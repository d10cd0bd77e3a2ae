package main

func main() {
	var range int
}
