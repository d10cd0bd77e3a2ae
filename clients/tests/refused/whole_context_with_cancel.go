package main

func work(ctx chan struct{}) {
	<-ctx
}

func main() {
	ctx, cancel := context.WithCancel(context.Background())
	go work(ctx)
	cancel()
}
