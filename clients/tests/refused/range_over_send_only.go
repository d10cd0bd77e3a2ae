package main

func f(c chan<- int) {
	for v := range c {
		println(v)
	}
}

func main() {
}
