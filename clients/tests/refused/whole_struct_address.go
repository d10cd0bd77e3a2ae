package main

func main() {
	acc := &Account{10}
	println(acc)
}
