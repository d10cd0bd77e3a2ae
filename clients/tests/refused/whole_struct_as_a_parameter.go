package main

func dine(p Philosopher, rounds int) {
	println(rounds)
}

func main() {
	println(1)
}
