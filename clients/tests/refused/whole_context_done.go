package main

func count(ctx chan struct{}, out chan int) {
	for i := 0; ; i++ {
		select {
		case out <- i:
		case <-ctx.Done():
			return
		}
	}
}

func main() {
	ctx, out := make(chan struct{}), make(chan int)
	go count(ctx, out)
	println(<-out)
	close(ctx)
}
