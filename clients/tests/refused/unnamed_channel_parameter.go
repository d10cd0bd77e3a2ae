package main

func f(chan int) {
}

func main() {
}
