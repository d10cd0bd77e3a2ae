package main

func main() {
	n := 1
	atomic.AddInt64(&n, 1)
}
