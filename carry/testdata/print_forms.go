package main

import "fmt"

type Point struct {
	X, Y int
	on   bool
}

func main() {
	fmt.Print("one line\n")
	fmt.Print("two\nlines\n")
	p := &Point{1, 2, true}
	fmt.Println(p, *p)
	fmt.Printf("%v %+v %q\n", *p, p, "quoted")
	fmt.Println([]int{1, 2}, [2]bool{true, false})
	var list []int
	for i := 0; i < 3; i++ {
		list = append(list, i*i)
	}
	fmt.Println("squares:", list, len(list))
	name := "ada"
	for i := 0; i < 2; i++ {
		fmt.Printf("%q is %s\n", name, name)
		name = "bob"
	}
	fmt.Println("\nthe end")
}
