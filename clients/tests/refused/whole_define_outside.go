package main

total := 0

func main() {
	total++
	println(total)
}
