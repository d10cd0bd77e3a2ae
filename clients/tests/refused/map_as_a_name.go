package main

func main() {
	map := 1
}
