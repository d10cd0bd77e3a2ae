package main

import "fmt"

func size(n int) string {
	switch x := n % 10; x {
	case 0:
		return "none"
	case 1, 2:
		if n > 10 {
			break
		}
		return "few"
	case 3:
		fallthrough
	default:
		return "many"
	}
	return "few of more"
}

func main() {
	out := make(chan string, 1)
	for i := 0; i < 13; i++ {
		switch {
		case i == 4:
			continue
		case i > 4 && i < 11:
			break
		default:
			out <- size(i)
			fmt.Println(i, <-out)
		}
	}
}
