package main

func main() {
	err := errors.New("no")
}
