package main

func main() {
	id, sum := 1, 5
	fmt.Printf("worker %d has %d", id, sum+1)
}
