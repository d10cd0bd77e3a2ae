package main

func main() {
	for i := 10; i; i-- {
	}
}
