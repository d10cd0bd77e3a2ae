package main

func main() {
	true = false
}
