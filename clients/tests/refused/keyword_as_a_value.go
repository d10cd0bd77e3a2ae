package main

func main() {
	x := select + 1
}
