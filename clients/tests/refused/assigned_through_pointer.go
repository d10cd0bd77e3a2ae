package main

func main() {
	p := 1
	*p = 2
}
