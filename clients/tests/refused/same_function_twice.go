package main

func work() {
}

func work() {
}

func main() {
}
