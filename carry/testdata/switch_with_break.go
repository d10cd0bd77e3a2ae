package main

import "fmt"

func classify(n int) string {
	kind := "none"
	switch {
	case n > 10:
		if n > 100 {
			break
		}
		kind = "large"
	case n > 5, n == 1:
		kind = "some"
	}
	return kind
}

func main() {
	c := make(chan string)
	go func() {
		for _, n := range []int{1, 7, 50, 500} {
			c <- classify(n)
		}
		close(c)
	}()
	for kind := range c {
		fmt.Println(kind)
	}
}
