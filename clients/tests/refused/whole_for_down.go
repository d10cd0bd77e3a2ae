package main

func main() {
	for i := 10; i > 0 {
		println(i)
	}
}
