package main

func main() {
	range := 1
}
