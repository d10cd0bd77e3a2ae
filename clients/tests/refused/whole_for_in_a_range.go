package main

func main() {
	for i in range(3):
		println(i)
}
