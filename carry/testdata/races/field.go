package main

import (
	"fmt"
)

type Account struct{ balance int }

func (a *Account) deposit(n int) { a.balance += n }

func main() {
	account := &Account{}
	done := make(chan bool)
	for _, n := range []int{10, 20} {
		go func(n int) {
			account.deposit(n)
			done <- true
		}(n)
	}
	<-done
	<-done
	fmt.Println(account.balance)
}
