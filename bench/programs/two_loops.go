package main

func count() {
	for i := 0; i < 10000000; i++ {
	}
}

func main() {
	go count()
	count()
}
