package main

func main(n int) {
}
