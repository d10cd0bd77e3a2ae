package pool

func Run(n int) {
	println(n)
}

func main() {
	Run(3)
}
