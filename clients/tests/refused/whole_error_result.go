package main

func check(n int) error {
	return nil
}

func main() {
	if err := check(3); err != nil {
		println(1)
	}
}
