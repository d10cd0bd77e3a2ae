package main

func main() {
	func() {
		println(1)
	}()
}
