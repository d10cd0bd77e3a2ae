package main

func main() {
	defer func() {
		println("done")
	}()
	println(1)
}
