package main

func main() {
	let total
	total = 5
}
