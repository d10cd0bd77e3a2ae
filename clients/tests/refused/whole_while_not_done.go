package main

func main() {
	done := false
	while (!done) {
		done = true
	}
}
