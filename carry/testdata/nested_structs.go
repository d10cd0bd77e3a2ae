package main

import (
	"fmt"
	"sync"
)

type Point struct{ X, Y int }

type Shape struct {
	Name   string
	Corner Point
	mu     *sync.Mutex
}

func (s *Shape) move(by Point) {
	s.mu.Lock()
	defer s.mu.Unlock()
	s.Corner.X += by.X
	s.Corner.Y += by.Y
}

func main() {
	s := &Shape{Name: "box", Corner: Point{1, 2}, mu: &sync.Mutex{}}
	var wg sync.WaitGroup
	wg.Add(2)
	go func() { s.move(Point{10, 0}); wg.Done() }()
	go func() { s.move(Point{Y: 5}); wg.Done() }()
	wg.Wait()
	p := s.Corner
	p.X = 0
	fmt.Println(s.Name, s.Corner.X, s.Corner.Y, p == Point{0, 7})
}
