package main

func main() {
	c := make(chan int, 3)
	println(int64(len(c)) + 1)
}
