package main

func main() {
	c := make(10)
}
