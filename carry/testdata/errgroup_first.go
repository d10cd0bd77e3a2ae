package main

import (
	"errors"
	"fmt"

	"golang.org/x/sync/errgroup"
)

func check(n int) error {
	if n == 2 {
		return errors.New("two is bad")
	}
	return nil
}

func main() {
	var g errgroup.Group
	for i := 0; i < 3; i++ {
		i := i
		g.Go(func() error {
			return check(i)
		})
	}
	if err := g.Wait(); err != nil {
		fmt.Println("error:", err)
		return
	}
	fmt.Println("all good")
}
