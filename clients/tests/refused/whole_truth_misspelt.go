package main

func main() {
	ready, read := false, 1
	if !redy {
		println(read)
	}
	println(ready)
}
