package main

async func main() {
	println(1)
}
