package main

func greet(name string) {
}

func main() {
}
