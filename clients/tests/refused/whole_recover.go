package main

func safe() {
	defer func() {
		recover()
	}()
	println(1)
}

func main() {
	println(1)
}
