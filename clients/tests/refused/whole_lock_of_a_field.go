package main

func deposit(account, amount int) {
	account.mu.Lock()
	println(amount)
	account.mu.Unlock()
}

func main() {
	deposit(5)
}
