package main

func main() {
	true := 1
}
