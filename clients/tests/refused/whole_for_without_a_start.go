package main

func main() {
	i := 0
	for i < 3; i++ {
		println(i)
	}
}
