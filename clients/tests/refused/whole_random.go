package main

func main() {
	n := rand.Intn(10)
	println(n)
}
