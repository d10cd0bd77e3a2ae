package main

func main() {
	var half float64
}
