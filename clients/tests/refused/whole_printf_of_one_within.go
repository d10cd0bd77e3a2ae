package main

func main() {
	id := 3
	fmt.Printf("philosopher %d eats", id)
}
