package main

func main() {
	if true {
		inner := 1
		println(inner)
	}
	println(inner)
}
