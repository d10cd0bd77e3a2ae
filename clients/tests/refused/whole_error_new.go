package main

func check(n int) bool {
	if n > 2 {
		return errors.New("too large")
	}
	return true
}

func main() {
	println(check(3))
}
