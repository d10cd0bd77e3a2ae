package main

func main() {
	if var x = 1 {
	}
}
