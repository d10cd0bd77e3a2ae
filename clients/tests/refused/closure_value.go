package main

func main() {
	add := func(n int) int { return n + 1 }
	println(add(1))
}
