package main

func f(n int) int {
	for n > 0 {
		return 1
	}
}

func main() {
}
