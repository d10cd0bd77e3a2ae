package main

const (
	Red = iota
	Green
	Blue
)

func main() {
	println(1)
}
