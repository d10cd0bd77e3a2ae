package main

func work(wg *sync.WaitGroup) {
	wg.Done()
}

func main() {
}
