package main

func main() {
	x := 1
	switch {
	case x > 0:
	}
}
