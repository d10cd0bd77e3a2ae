package main

const workers = 3

func main() {
	jobs := make(chan int, workers)
	println(cap(jobs))
}
