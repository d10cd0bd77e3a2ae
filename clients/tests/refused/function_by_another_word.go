package main

function work() {
}

func main() {
}
