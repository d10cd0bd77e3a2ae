package translate

import (
	"fmt"
	"strings"
)

// How tightly an expression binds, as in Go; names, calls and literals bind tightest.
const (
	atom  = 7
	unary = 6
)

// A Value is a value of Go as an expression of the language for each leaf of its shape.
type Value struct {
	Shape  Shape
	Code   []string
	Binds  int      // how tightly the expression of a value with one leaf binds
	Acts   bool     // whether finding it is more than looking at variables and constants
	Number *int     // the number that it is, where that is known
	Raw    []string // of a new slice whose elements lie in cells: the elements themselves
}

func single(shape Shape, code string, acts bool) Value {
	return Value{Shape: shape, Code: []string{code}, Binds: atom, Acts: acts}
}

func number(n int) Value {
	return Value{Shape: Num{}, Code: []string{itoa(n)}, Binds: atom, Number: &n}
}

// one is the expression of a value with one leaf.
func (v Value) one() string {
	if len(v.Code) != 1 {
		panic(fmt.Sprintf("a value of %d leaves stands for one", len(v.Code)))
	}
	return v.Code[0]
}

// within is the expression of a value with one leaf, in parentheses where what stands around it binds as tightly.
func (v Value) within(binds int) string {
	if v.Binds < binds {
		return "(" + v.one() + ")"
	}
	return v.one()
}

// part takes the leaves of one part of a value.
func (v Value) part(from int, shape Shape) Value {
	return Value{Shape: shape, Code: v.Code[from : from+len(shape.leaves())], Binds: atom, Acts: v.Acts}
}

func itoa(n int) string { return fmt.Sprint(n) }

// commas joins expressions.
func commas(lists ...[]string) string {
	var all []string
	for _, list := range lists {
		all = append(all, list...)
	}
	return strings.Join(all, ", ")
}
