package main

import "fmt"

type task func() int

type handler struct {
	name string
	run  func(int) int
}

var twice = map[string]func(int) int{"double": func(n int) int { return 2 * n }, "square": square}

func square(n int) int { return n * n }

func counter(from int) func() int {
	count := from
	return func() int {
		count++
		return count
	}
}

func adder(by int) func(int) int {
	return func(n int) int { return n + by }
}

func work(tasks <-chan task, results chan<- int) {
	for run := range tasks {
		results <- run()
	}
	close(results)
}

func main() {
	tasks, results := make(chan task, 3), make(chan int, 3)
	go work(tasks, results)
	for i := 1; i < 3; i++ {
		n := i
		tasks <- func() int { return 10 * n }
	}
	next := counter(5)
	tasks <- next
	close(tasks)
	sum := 0
	for n := range results {
		sum += n
	}
	fmt.Println(sum, next(), counter(1)())
	for _, it := range []handler{{"add", adder(3)}, {"square", square}, {"none", nil}} {
		if it.run == nil {
			fmt.Println(it.name)
			continue
		}
		fmt.Println(it.name, it.run(4))
	}
	fmt.Println(twice["double"](4), twice["square"](4))
	go func() { twice["missing"](1) }()
	select {}
}
