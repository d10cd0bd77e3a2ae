package main

import (
	"errors"
	"fmt"
)

func validate(n int, errs chan<- error) {
	if n < 0 {
		errs <- errors.New("negative")
	}
}

func main() {
	errs := make(chan error)
	validate(-1, errs) // nobody receives yet
	select {
	case err := <-errs:
		fmt.Println(err)
	default:
		fmt.Println("valid")
	}
}
