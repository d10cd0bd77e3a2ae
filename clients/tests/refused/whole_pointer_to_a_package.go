package main

func report(t *testing.T) {
	println(1)
}

func main() {
	println(1)
}
