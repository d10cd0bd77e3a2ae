package main

func work(n int) {
	println(n)
}

func main() {
	worker := 1
	workr(worker)
}
