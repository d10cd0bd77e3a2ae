package main

const (
	red = iota
	green
)

func main() {
}
