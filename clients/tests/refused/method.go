package main

func (c counter) add(n int) {
}

func main() {
}
