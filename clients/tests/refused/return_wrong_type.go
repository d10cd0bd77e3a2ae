package main

func f() bool {
	return 1
}

func main() {
}
