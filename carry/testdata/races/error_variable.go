package main

import (
	"errors"
	"fmt"
	"sync"
)

var errFirst, errSecond = errors.New("first"), errors.New("second")

func main() {
	var err error
	var wg sync.WaitGroup
	for i := 0; i < 2; i++ {
		wg.Add(1)
		go func(i int) {
			defer wg.Done()
			if i == 0 {
				err = errFirst
			} else {
				err = errSecond
			}
		}(i)
	}
	wg.Wait()
	fmt.Println(err)
}
