package main

func main() {
	ok := true
	println(-ok)
}
