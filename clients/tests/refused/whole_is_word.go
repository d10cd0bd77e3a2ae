package main

func main() {
	a := 1
	if a is 1 {
		println(1)
	}
}
