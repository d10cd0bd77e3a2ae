package main

func main() {
	x := 1
	if (x := 2; x > 1) {
	}
}
