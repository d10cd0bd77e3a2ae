package main

func main() {
	time.Sleep(10 * time.Millisecond)
}
