package main

func main() {
	balance := 10
	acc := balance
	println(acc.balance)
}
