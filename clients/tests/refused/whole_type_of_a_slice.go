package main

type Queue []int

func main() {
	println(1)
}
