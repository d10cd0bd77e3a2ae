package main

func main() {
	true()
}
