package main

import "fmt"

func with(all []int, n int) []int {
	all = append(all, n)
	return all
}

func each(all []int, do func(int)) {
	for _, n := range all {
		do(n)
	}
	if do == nil {
		fmt.Println("nothing to do")
	}
}

func main() {
	var all []int
	for i := 0; i < 3; i++ {
		all = with(all, i)
	}
	fmt.Println(all, with(nil, 4), len(all))
	each(nil, nil)
	each(all, func(n int) { fmt.Println(n) })
}
