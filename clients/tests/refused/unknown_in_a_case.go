package main

func main() {
	select {
	case <-later:
	}
}
