package main

func main() {
	for i := 0; i++ {
		println(i)
	}
}
