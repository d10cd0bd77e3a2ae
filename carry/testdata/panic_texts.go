package main

import (
	"fmt"
	"log"
)

func withdraw(balance, amount int) int {
	if amount > balance {
		panic(fmt.Sprintf("cannot pay %d of %d", amount, balance))
	}
	return balance - amount
}

func main() {
	log.SetFlags(0)
	amounts := make(chan int)
	for _, amount := range []int{6, 3, 4} {
		go func(amount int) { amounts <- amount }(amount)
	}
	balance := 10
	for i := 0; i < 2; i++ {
		balance = withdraw(balance, <-amounts)
	}
	fmt.Println(balance)
	if balance == 0 {
		log.Panicf("nothing is left after %d", 2)
	}
	balance = withdraw(balance, <-amounts)
}
