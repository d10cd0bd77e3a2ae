package main

import (
	"errors"
	"fmt"
	"sync"
)

var ErrFunds = errors.New("not enough money")

type Account struct {
	sync.Mutex
	id      int
	balance int
}

func (a *Account) withdraw(amount int) error {
	if a.balance < amount {
		return ErrFunds
	}
	a.balance -= amount
	return nil
}

func transfer(from, to *Account, amount int) error {
	from.Lock()
	defer from.Unlock()
	to.Lock()
	defer to.Unlock()
	if err := from.withdraw(amount); err != nil {
		return err
	}
	to.balance += amount
	return nil
}

func main() {
	a := &Account{id: 1, balance: 50}
	b := &Account{id: 2, balance: 50}
	var wg sync.WaitGroup
	wg.Add(2)
	go func() {
		defer wg.Done()
		if err := transfer(a, b, 10); err != nil {
			fmt.Println("a to b:", err)
		}
	}()
	go func() {
		defer wg.Done()
		if err := transfer(b, a, 70); err != nil {
			fmt.Println("b to a:", err)
		}
	}()
	wg.Wait()
	fmt.Println(a.balance + b.balance)
}
