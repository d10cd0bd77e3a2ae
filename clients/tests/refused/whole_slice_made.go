package main

func main() {
	squares := make([]int, 5)
	for i := 0; i < 5; i++ {
		squares[i] = i * i
	}
	println(squares[4])
}
