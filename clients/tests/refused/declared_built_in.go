package main

func close(c chan int) {
}

func main() {
}
