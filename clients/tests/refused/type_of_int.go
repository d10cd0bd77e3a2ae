package main

type number int

func main() {
}
