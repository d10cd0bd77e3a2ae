package main

func main() {
	for v := range jobs {
		println(v)
	}
}
