package main

func main() {
	start := time.Now()
	println(1)
}
