package main

func main() {
	go fmt.Println("hi")
	println(1)
}
