package main

func main() {
	n := 3
	println(strconv.Itoa(n))
}
