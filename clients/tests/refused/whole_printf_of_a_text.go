package main

func main() {
	fmt.Printf("start")
	println(1)
}
