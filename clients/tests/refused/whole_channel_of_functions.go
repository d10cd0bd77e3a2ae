package main

func main() {
	tasks := make(chan<- func())
	println(cap(tasks))
}
