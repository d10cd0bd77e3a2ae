package main

func deposit(account, amount int) {
	println(amount)
	account.mu.Unlock()
}

func main() {
	deposit(5)
}
