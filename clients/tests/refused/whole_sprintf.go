package main

func main() {
	n := 3
	name := fmt.Sprintf("worker-%d", n)
	println(name)
}
