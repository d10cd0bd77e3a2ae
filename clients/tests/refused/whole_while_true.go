package main

func main() {
	x := 0
	while true:
	x++
}
