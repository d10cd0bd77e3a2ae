package main

func main() {
	var e interface{} = 3
	println(e)
}
