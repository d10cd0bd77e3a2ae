package main

func main() {
	ages := make(map[int]int)
}
