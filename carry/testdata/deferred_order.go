package main

import "fmt"

func work(n int) (result int) {
	defer fmt.Println("first deferred", n)
	defer func() { result *= 2 }()
	n++
	defer fmt.Println("last deferred", n)
	if n > 5 {
		return n
	}
	return -n
}

func main() {
	fmt.Println(work(1))
	fmt.Println(work(7))
}
