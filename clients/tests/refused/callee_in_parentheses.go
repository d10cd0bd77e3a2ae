package main

func main() {
	(main)()
}
