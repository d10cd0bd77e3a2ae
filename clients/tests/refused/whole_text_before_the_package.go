Exercise 3

package main

func main() {
	println(1)
}
