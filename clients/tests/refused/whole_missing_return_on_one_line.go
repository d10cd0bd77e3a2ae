package main

func sign(n int) int { if n < 0 { return 0 } }

func main() {
	println(sign(3))
}
