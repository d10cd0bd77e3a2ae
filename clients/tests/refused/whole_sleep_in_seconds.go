package main

func main() {
	pause := 2 * time.Second
	println(pause)
}
