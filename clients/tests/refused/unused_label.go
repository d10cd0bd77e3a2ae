package main

func main() {
	again:
		for {
		}
}
