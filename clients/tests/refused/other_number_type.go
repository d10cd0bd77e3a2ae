package main

func main() {
	var small int32
}
