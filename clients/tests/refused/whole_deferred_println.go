package main

func main() {
	defer println("done")
	println(1)
}
