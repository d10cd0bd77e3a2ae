package main

func main() {
	ctx := context.Background()
}
