package main

func main() {
	é := 1
}
