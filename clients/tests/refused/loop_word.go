package main

func main() {
	loop {
	}
}
