package main

func main() {
	for i := 0; i < limit; i++ {
	}
}
