package main

func main() {
	len(nil) = 2
}
