package main

func main() {
	var any interface{}
}
