package main

func main() {
	println(1)
	os.Exit(1)
}
