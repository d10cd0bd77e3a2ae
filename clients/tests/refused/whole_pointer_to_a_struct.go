package main

func transfer(from, to *Account, amount int) {
	println(amount)
}

func main() {
	transfer(1)
}
