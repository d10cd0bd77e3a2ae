// A variable beside a call is read behind the call, as Go's compiler does.
package main

import "fmt"

var total int

type tally struct{ count int }

func (t *tally) next() int {
	t.count++
	return t.count
}

func spend(n int) int {
	total += n
	return n
}

func pair(a, b, c int) string {
	return fmt.Sprintf("%d,%d,%d", a, b, c)
}

func main() {
	fmt.Println(total, spend(1), total)
	total += spend(2)
	fmt.Println(total)
	sum := total + spend(3)*2 + total
	fmt.Println(sum, total)
	t := &tally{}
	fmt.Println(t.count, t.next(), t.count+t.next())
	list := []int{total, spend(4), total}
	fmt.Println(list[0], list[1], list[2])
	fmt.Println(pair(total, spend(5), t.count))
	signs := make(chan int, 2)
	signs <- total + spend(1)
	total = total*2 + <-signs
	fmt.Println(total, total > 30 && spend(1) > 0, total)
	go func(a, b int) { signs <- a*100 + b }(total, spend(1))
	fmt.Println(<-signs)
	if total != spend(1) || total < 0 {
		fmt.Println("differs", total)
	}
}
