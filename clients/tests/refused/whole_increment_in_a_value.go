package main

func main() {
	i := 0
	j := 1 + ++i
	println(j)
}
