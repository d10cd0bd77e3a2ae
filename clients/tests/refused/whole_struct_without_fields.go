package main

type Done struct{}

func main() {
	done := make(chan Done)
	<-done
}
