package main

func ask(server int, answers chan int) {
	answers <- server * 100
}

func first() int {
	answers := make(chan int)
	go ask(1, answers)
	go ask(2, answers)
	return <-answers
}

func main() {
	println(first())
	println(first())
}
