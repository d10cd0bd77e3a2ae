package main

func main() {
	x := 1
	if x > 1 {
		println(1)
	}
	elif x > 0 {
		println(2)
	}
}
