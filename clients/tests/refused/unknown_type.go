package main

func main() {
	var p point
}
