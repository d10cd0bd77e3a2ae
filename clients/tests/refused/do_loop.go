package main

func main() {
	do {
	} while (true)
}
