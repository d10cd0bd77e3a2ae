package main

func div(a, b int) (int, int) {
	return a / b, a % b
}

func main() {
	q, r := div(7, 2)
	println(q, r)
}
