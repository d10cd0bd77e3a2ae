package main

func work(i int) {
	println(i)
}

func main() {
	var wg sync.WaitGroup
	for i := 0; i < 3; i++ {
		wg.Add(1)
		go work(i)
	}
	wg.Wait()
}
