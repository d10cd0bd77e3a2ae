package main

func main() {
	c := nil
}
