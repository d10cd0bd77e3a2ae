package main

func main() {
	f := len
}
