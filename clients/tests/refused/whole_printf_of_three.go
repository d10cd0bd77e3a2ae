package main

func main() {
	a, b, c := 1, 2, 3
	fmt.Printf("%d %d %d", a, b, c)
}
