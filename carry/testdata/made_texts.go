package main

import (
	"errors"
	"fmt"
	"strconv"
)

var errEmpty = errors.New("nothing there")

func name(i int) string { return "user-" + strconv.Itoa(i) }

func find(i int) (string, error) {
	if i < 0 {
		return "", fmt.Errorf("find %d: %w", i, errEmpty)
	}
	return name(i), nil
}

func ask(who string, asked int, out chan<- string) {
	out <- fmt.Sprintf("%s asks %d times, %t", who, asked, asked > 1)
}

func main() {
	out := make(chan string)
	go ask("ada", 1, out)
	go ask(name(2), 2, out)
	fmt.Println(<-out)
	fmt.Println(<-out)

	one, err := find(3)
	fmt.Println(one, err, one == name(3), one != name(-3))
	_, err = find(-1)
	fmt.Println(err, errors.Is(err, errEmpty), err == errEmpty)
	fmt.Printf("%q and %v\n", one, errors.New("again: "+err.Error()))
}
