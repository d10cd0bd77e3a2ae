package main

func main() {
	day := 3
	switch day {
	case 1, 7:
		println("weekend")
	default:
		println("work")
	}
}
