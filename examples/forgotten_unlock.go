package main

// A send takes the lock, and a receive gives it back.
func withdraw(account, lock chan int, amount int, done chan bool) {
	lock <- amount
	balance := <-account
	if balance < amount {
		account <- balance
		done <- false
		return
	}
	account <- balance - amount
	<-lock
	done <- true
}

func main() {
	account, lock, done := make(chan int, 1), make(chan int, 1), make(chan bool)
	account <- 100
	for i := 1; i <= 3; i++ {
		go withdraw(account, lock, 60*i, done)
	}
	for i := 0; i < 3; i++ {
		println(<-done)
	}
	println("balance", <-account)
}
