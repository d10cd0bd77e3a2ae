package main

func main() {
	defer func() {
	}()
}
