package main

func name() string {
	return 1
}

func main() {
}
