package main

counter := 0

func main() {
	counter++
}
