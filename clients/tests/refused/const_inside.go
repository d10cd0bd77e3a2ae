package main

func main() {
	const limit = 10
	println(limit)
}
