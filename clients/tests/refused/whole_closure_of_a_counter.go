package main

func main() {
	count := 0
	next := func() int {
		count++
		return count
	}
	println(next())
}
