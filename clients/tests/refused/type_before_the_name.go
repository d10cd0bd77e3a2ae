package main

func f(int a) {
}

func main() {
}
