package main

func f(int, bool) {
}

func main() {
}
