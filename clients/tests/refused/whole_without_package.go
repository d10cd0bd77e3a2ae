func main() {
	println("hello")
}
