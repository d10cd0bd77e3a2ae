package main

func main() {
	results, result := make(chan int, 1), 0
	resuls <- 1
	println(result, <-results)
}
