package main

import (
	"fmt"
	"os"
	"os/signal"
	"sync"
	"syscall"
	"time"
)

func worker(stop <-chan struct{}, wg *sync.WaitGroup) {
	defer wg.Done()
	<-stop
	fmt.Println("worker: stopping")
}

func main() {
	signals := make(chan os.Signal, 1)
	signal.Notify(signals, os.Interrupt, syscall.SIGTERM)
	defer signal.Stop(signals)

	stop := make(chan struct{})
	var wg sync.WaitGroup
	wg.Add(1)
	go worker(stop, &wg)

	select {
	case got := <-signals:
		fmt.Println("got", got)
		if got == syscall.SIGTERM {
			fmt.Println("in haste")
		}
	case <-time.After(5 * time.Millisecond):
		fmt.Println("time is up")
	}
	close(stop)
	wg.Wait()
	fmt.Println("finished")
}
