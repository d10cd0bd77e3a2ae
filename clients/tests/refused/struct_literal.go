package main

func main() {
	p := point{1, 2}
}
