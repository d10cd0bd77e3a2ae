package main

func main() {
	x := 4611686018427387904 * 2
	println(x)
}
