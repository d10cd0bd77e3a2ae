package main

func main() {
	var anything any
}
