package main

func f(n int) int {
	return n
}

func main() {
	stack := make(chan int, 3)
	stack.Push(f(1))
}
