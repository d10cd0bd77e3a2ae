package main

func main() {
	f := main
}
