package main

func main() {
	wg.Done()
}
