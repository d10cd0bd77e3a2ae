package main

func main() {
	x := true
	println(int(x))
}
