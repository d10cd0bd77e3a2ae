package main

func main() {
	x := '\n'
}
