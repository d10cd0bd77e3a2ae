package main

func work(ctx chan struct{}) {
	<-ctx
}

func main() {
	ctx := context.Background()
	go work(ctx)
}
