package main

func main() {
	quit := make(chan os.Signal, 1)
	<-quit
}
