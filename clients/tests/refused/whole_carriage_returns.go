package main

func main() {
	x := 5
	fmt.Println("x",
		x)
}
