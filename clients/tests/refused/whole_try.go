package main

func main() {
	try {
		println(1)
	} catch (e) {
		println(2)
	}
}
