package main

func (Counter) Add(n int) {
	println(n)
}

func main() {
	println(1)
}
