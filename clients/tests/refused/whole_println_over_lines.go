package main

func main() {
	a, b := 1, 2
	fmt.Println("a and b", // two
		a,
		b)
}
