package main

func main() {
	counter++
}
