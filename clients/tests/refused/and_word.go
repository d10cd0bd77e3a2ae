package main

func main() {
	a, b := true, true
	if a and b {
	}
}
