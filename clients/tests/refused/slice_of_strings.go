package main

func main() {
	words := []string{"a", "b"}
}
