package main

func main() {
	fmt.Println()
	println(1)
}
