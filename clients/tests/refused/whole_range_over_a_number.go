package main

func main() {
	for i := 0; i < 2; i++ {
		for range 3 {
			println(i)
		}
	}
}
