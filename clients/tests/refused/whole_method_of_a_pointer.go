package main

func (c *Counter) Add(n int) {
	println(n)
}

func main() {
	println(1)
}
