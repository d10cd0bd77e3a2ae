package main

func main() {
	x := 1
	println(float64(x))
}
