package main

func main() {
	for i, v := range numbers {
	}
}
