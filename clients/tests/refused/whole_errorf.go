package main

func check(n int) bool {
	if n > 2 {
		return fmt.Errorf("too large: %d", n)
	}
	return true
}

func main() {
	println(check(3))
}
