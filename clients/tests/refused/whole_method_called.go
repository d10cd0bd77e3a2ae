package main

func main() {
	counter := 0
	counter.Inc()
	println(counter)
}
