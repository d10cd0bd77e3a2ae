package main

type Counter struct {
	mu sync.Mutex
	n  int
}

func main() {
	c := 3
	println(c)
}
