package main

func main() {
	copy(1, 2)
}
