package main

func f() (n int) {
	return 1
}

func main() {
}
