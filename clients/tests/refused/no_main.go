package main

func work() {
}
