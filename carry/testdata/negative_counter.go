package main

import "sync"

func main() {
	var wg sync.WaitGroup
	wg.Add(1)
	done := make(chan bool)
	for i := 0; i < 2; i++ {
		go func() {
			wg.Done()
			done <- true
		}()
	}
	<-done
	<-done
	wg.Wait()
}
