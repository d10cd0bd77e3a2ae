/* a program
   of mine */ func main() {
	println(1)
}
