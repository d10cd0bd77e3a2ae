package main

func main() {
	x := '\n'
	println(x)
}
