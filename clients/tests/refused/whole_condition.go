package main

func main() {
	mu := make(chan struct{}, 1)
	cond := sync.NewCond(mu)
	println(1)
}
