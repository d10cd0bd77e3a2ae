package main

type point struct {
	x, y int
}

func main() {
}
