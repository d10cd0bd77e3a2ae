package main

func main() {
	n := 1
	n = int64()
	println(n)
}
