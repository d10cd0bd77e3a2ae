package main

func count(n int) {
	for i := 0; i < n; i++ {
	}
}

func main() {
	for i := 0; i < 10000; i++ {
		go count(1000)
	}
	select {}
}
