package main

func main() {
	c := 1
	c.inc(2)
}
