package main

func main() {
	jobs <- 1
}
