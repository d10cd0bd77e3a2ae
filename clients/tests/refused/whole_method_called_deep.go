package main

func main() {
	a := 0
	println(a.b.Sum(f(1)))
}
