package main

func main() {
	f := 3
	defer f.Close()
	println(f)
}
