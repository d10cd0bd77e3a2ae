package main

func worker(id int) {
	println(id)
}

func main() {
	for i := 0; i < workers; i++ {
		go worker(i)
	}
}
