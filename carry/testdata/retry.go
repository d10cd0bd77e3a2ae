package main

import (
	"errors"
	"fmt"
	"sync"
	"time"
)

type Task func() error

var errBoom = errors.New("boom")

func retry(n int, task func(int) error) error {
	var err error
	for i := 0; i < n; i++ {
		if err = task(i); err == nil {
			return nil
		}
		time.Sleep(time.Millisecond)
	}
	return err
}

func main() {
	var once sync.Once
	stop := func() {
		once.Do(func() { fmt.Println("stopped") })
	}
	err := retry(3, func(i int) error {
		if i < 1 {
			return errBoom
		}
		return nil
	})
	fmt.Println("err:", err, err == nil)
	err2 := retry(2, func(int) error { return errBoom })
	if errors.Is(err2, errBoom) {
		fmt.Println("failed:", err2.Error())
	}
	go stop()
	stop()
	timer := time.NewTimer(5 * time.Millisecond)
	select {
	case <-timer.C:
		fmt.Println("fired")
	case <-time.After(50 * time.Millisecond):
		fmt.Println("later")
	}
	if !timer.Stop() {
		fmt.Println("was fired")
	}
	results := []int{}
	var mu sync.Mutex
	var wg sync.WaitGroup
	for i := 0; i < 2; i++ {
		wg.Add(1)
		go func() {
			defer wg.Done()
			mu.Lock()
			defer mu.Unlock()
			results = append(results, i)
		}()
	}
	wg.Wait()
	fmt.Println(len(results))
}
