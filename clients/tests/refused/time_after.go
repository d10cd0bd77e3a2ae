package main

func main() {
	select {
	case <-time.After(1):
	}
}
