package main

func main() {
	var name string
}
