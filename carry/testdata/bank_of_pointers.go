package main

import (
	"errors"
	"fmt"
	"log"
	"sync"
)

type Account struct {
	sync.Mutex
	id      int
	balance int
}

type Bank struct {
	accounts map[int]*Account
}

var (
	ErrNoAccount    = errors.New("no such account")
	ErrInsufficient = errors.New("insufficient funds")
)

func (b *Bank) find(id int) (*Account, error) {
	a, ok := b.accounts[id]
	if !ok {
		return nil, fmt.Errorf("account %d: %w", id, ErrNoAccount)
	}
	return a, nil
}

func (b *Bank) Transfer(from, to, amount int) error {
	src, err := b.find(from)
	if err != nil {
		return err
	}
	dst, err := b.find(to)
	if err != nil {
		return err
	}
	src.Lock()
	defer src.Unlock()
	dst.Lock()
	defer dst.Unlock()
	if src.balance < amount {
		return ErrInsufficient
	}
	src.balance -= amount
	dst.balance += amount
	return nil
}

func main() {
	bank := &Bank{accounts: map[int]*Account{
		1: {id: 1, balance: 100},
		2: {id: 2, balance: 100},
	}}
	var wg sync.WaitGroup
	wg.Add(2)
	go func() {
		defer wg.Done()
		if err := bank.Transfer(1, 2, 30); err != nil {
			log.Println(err)
		}
	}()
	go func() {
		defer wg.Done()
		if err := bank.Transfer(2, 1, 50); err != nil {
			log.Println(err)
		}
	}()
	wg.Wait()
	fmt.Println(bank.accounts[1].balance, bank.accounts[2].balance)
}
