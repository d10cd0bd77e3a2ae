package main

func spin(n int) {
	for i := 0; i < n; i++ {
	}
}

func main() {
	go spin(9)
	go spin(9)
	select {}
}
