package main

func (c Counter) Value() int {
	return 1
}

func main() {
	println(1)
}
