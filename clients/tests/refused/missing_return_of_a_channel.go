package main

func f() chan int {
	for {
		break
	}
}

func main() {
}
