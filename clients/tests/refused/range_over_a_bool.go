package main

func main() {
	for v := range true {
	}
}
