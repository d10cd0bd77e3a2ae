package main

import "sync"

func main() {
}
