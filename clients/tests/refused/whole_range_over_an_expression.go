package main

func main() {
	n, i := 3, 0
	for i = range n * 2 {
		println(i)
	}
}
