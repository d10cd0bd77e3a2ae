package main

import (
	"bufio"
	"fmt"
	"net/http"
	"os"
	"reflect"
	"sync"
	"unsafe"
)

type Stack[T any] struct{ items []T }

func Map[T any](xs []T, f func(T) T) []T { return xs }

type Shape interface{ Area() int }
type Sq struct{ n int }

func (s Sq) Area() int { return s.n }

var m = map[string]int{"a": 1}

func main() {
	var s Shape = Sq{2}
	fmt.Println(s.Area())
	x := 1.5
	fmt.Println(x)
	r := bufio.NewReader(os.Stdin)
	_ = r
	http.Get("x")
	fmt.Println(reflect.TypeOf(3), unsafe.Sizeof(3))
	var xs []int
	xs = append(xs, 3)
	m["b"] = 2
	defer func() { recover() }()
	for k, v := range m {
		fmt.Println(k, v)
	}
	name := "a"
	name += "b"
	fmt.Println(fmt.Sprintf("%5d", 3) + name)
	goto end
end:
	var mu sync.Mutex
	mu.Lock()
	var st Stack[int]
	_ = st
	if true {
		defer mu.Unlock()
	}
	switch v := s.(type) {
	case Sq:
		_ = v
	}
}
