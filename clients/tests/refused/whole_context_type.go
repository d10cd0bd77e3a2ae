package main

func work(ctx context.Context) {
	<-ctx.Done()
	println(1)
}

func main() {
	ctx := make(chan struct{})
	go work(ctx)
	close(ctx)
}
