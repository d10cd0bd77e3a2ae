package main

func main() {
	a, b := true, false
	if a or b {
		println(1)
	}
}
