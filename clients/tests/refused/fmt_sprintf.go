package main

func main() {
	x := fmt.Sprintf("%d", 1)
}
