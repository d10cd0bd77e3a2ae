package main

func account(read, write chan int) {
	balance := 0
	for {
		select {
		case read <- balance:
		case balance = <-write:
		}
	}
}

func deposit(read, write chan int, amount int, done chan bool) {
	balance := <-read
	write <- balance + amount
	done <- true
}

func main() {
	read, write, done := make(chan int), make(chan int), make(chan bool)
	go account(read, write)
	go deposit(read, write, 10, done)
	go deposit(read, write, 20, done)
	<-done
	<-done
	println("balance", <-read)
}
