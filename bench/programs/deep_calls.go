package main

func depth(n int) int {
	if n == 0 {
		return 0
	}
	return depth(n-1) + 1
}

func main() {
	sum := 0
	for i := 0; i < 300; i++ {
		sum += depth(900)
	}
	println(sum)
}
