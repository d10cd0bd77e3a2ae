package main

func open(n int) *Account {
	return nil
}

func main() {
	println(1)
}
