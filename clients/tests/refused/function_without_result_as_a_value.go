package main

func main() {
	x := main()
}
