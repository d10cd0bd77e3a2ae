package main

func work(id int, wg sync.WaitGroup) {
	println(id)
	wg.Done()
}

func main() {
	work(1)
}
