package main

func work(ctx chan struct{}) {
	<-ctx
}

func main() {
	ctx, cancel := context.WithTimeout(context.Background(), 10)
	go work(ctx)
	cancel()
}
