package main

func main() {
	for i := 0; i < 9223372036854775808; i++ {
	}
}
