package main

import "fmt"

func evens(below int) []int {
	var found []int
	for n := 0; n < below; n += 2 {
		found = append(found, n)
	}
	return found
}

func split(all []int) (small, large []int) {
	for _, n := range all {
		if n < 4 {
			small = append(small, n)
		} else {
			large = append(large, n)
		}
	}
	return small, large
}

func squares(count int, done chan<- bool) []int {
	found := make([]int, count)
	for i := range found {
		go func(at int) {
			found[at] = at * at
			done <- true
		}(i)
	}
	return found
}

type batch struct{ items []int }

func main() {
	all := evens(8)
	small, large := split(all)
	fmt.Println(len(all), small, large)

	done := make(chan bool)
	count := 0
	for range small {
		count++
	}
	made := squares(count, done)
	view := made
	for range made {
		<-done
	}
	view[0] = 7
	fmt.Println(made[0], made[1], len(view))

	batches := make(chan batch, 1)
	batches <- batch{items: append([]int{}, large...)}
	got := <-batches
	got.items = append(got.items, all...)
	fmt.Println(got.items)
}
