package main

func main() {
	var failure error
}
