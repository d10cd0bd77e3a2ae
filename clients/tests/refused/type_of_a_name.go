package main

func main() {
	true_ := 1
	var x true_
}
