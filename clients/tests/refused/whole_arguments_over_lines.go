package main

func add(a, b int) int {
	return a + b
}

func main() {
	a, b := 1, 2
	fmt.Println("sum", // of both
		add(a,
			-b), !true)
}
