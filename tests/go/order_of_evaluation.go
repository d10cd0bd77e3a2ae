package main

// Calls and receives of one expression go from left to right.
func f(n int) int {
	println("f", n)
	return n
}

func b(n int, result bool) bool {
	println("b", n)
	return result
}

func main() {
	c := make(chan int, 2)
	c <- 5
	c <- 7
	println(f(1)+<-c*f(2)-<-c, b(1, false) && b(2, true) || b(3, true))
	x := f(3) - f(4)*f(5)
	println(x, len(c), -7/2, -7%2, 7&^5, 1<<3|1)
}
