package main

func f(a int, a bool) {
}

func main() {
}
