package main

func main() {
	a := true
	if not a {
	}
}
