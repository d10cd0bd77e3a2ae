package main

func count(n int) {
	for i := 0; i < n; i++ {
	}
}

func main() {
	go count(10000000)
	select {}
}
