package main

func main() {
	var seen sync.Map
	println(1)
}
