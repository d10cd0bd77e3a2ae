package main

func divide(a, b int) (int, int) {
	return a / b, a % b
}

func main() {
}
