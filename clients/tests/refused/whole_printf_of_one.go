package main

func main() {
	x := 3
	fmt.Printf("x is %d", x)
}
