package main

func main() {
	x := println(1)
}
