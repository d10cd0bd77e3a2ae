package main

func main() {
	total := 0
	for _, x := range numbers {
		total += x
	}
	println(total)
}
