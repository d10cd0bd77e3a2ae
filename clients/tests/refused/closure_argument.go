package main

func f(n int) {
}

func main() {
	f(func() int { return 1 }())
}
