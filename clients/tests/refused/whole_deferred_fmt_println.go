package main

func main() {
	defer fmt.Println("bye", 1)
	println(1)
}
