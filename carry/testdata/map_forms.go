package main

import "fmt"

type point struct{ x, y int }

type account struct{ balance int }

func total(of map[string]*account) int {
	sum := 0
	for _, it := range of {
		sum += it.balance
	}
	return sum
}

func main() {
	grid := map[point]string{{1, 2}: "a", {3, 4}: "b"}
	grid[point{1, 2}] = "c"
	delete(grid, point{3, 4})
	for at, name := range grid {
		fmt.Println(at.x, at.y, name)
	}

	accounts := map[string]*account{"ada": {10}, "bob": {20}}
	accounts["ada"].balance += 5
	fmt.Println(total(accounts), accounts["eve"] == nil, len(accounts))

	var none map[int]int
	fmt.Println(none[3], len(none), none == nil)

	squares := make(map[int]int)
	for i := 0; i < 4; i++ {
		squares[i] = i * i
	}
	for n := range squares {
		if n > 0 {
			delete(squares, n)
		}
	}
	if n, ok := squares[0]; ok {
		fmt.Println("left", n, len(squares))
	}
	none[1] = 1
}
