package main

func main() {
	n := 5
	console.log("n is", n)
}
