package main

func main() {
	p := Point{1, 2}
	println(p)
}
