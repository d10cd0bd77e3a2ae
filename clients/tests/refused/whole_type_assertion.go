package main

func main() {
	e := 3
	n, ok := e.(int)
	println(n, ok)
}
