package main

func work(ctx chan struct{}) {
	<-ctx
}

func main() {
	ctx := make(chan struct{})
	go work(ctx)
	cancel()
}
