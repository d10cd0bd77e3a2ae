package translate

import (
	"go/ast"
	"go/token"
	"strings"
)

// compared is `==` or `!=`, of each leaf.
func (f *function) compared(it *ast.BinaryExpr, x, y Value) Value {
	if _, ok := x.Shape.(Nothing); ok {
		x, y = y, x
	}
	if _, ok := y.Shape.(Nothing); ok {
		if found, ok := f.comparedWithNil(it, x); ok {
			return found
		}
	}
	y = f.fit(y, x.Shape, it)
	if x.Shape.key() == "string" {
		f.comparisons = append(f.comparisons, it)
	}
	codes := len(x.Code)
	if ref, ok := x.Shape.(Ref); ok {
		// Two pointers are equal where their first cells are.
		for at, isCell := range ref.cells() {
			if isCell {
				x, y = x.leaf(at), y.leaf(at)
				return f.joined(it.Op, Truth{}, x, y)
			}
		}
		f.refuse(it, "pointers", "pointers to values that never change are not compared", "compare what they lead to")
	}
	if _, ok := isTool(x.Shape); ok {
		return f.joined(it.Op, Truth{}, x.leaf(0), y.leaf(0))
	}
	if codes == 0 {
		return single(Truth{}, map[token.Token]string{token.EQL: "true", token.NEQ: "false"}[it.Op], false)
	}
	between := map[token.Token]token.Token{token.EQL: token.LAND, token.NEQ: token.LOR}[it.Op]
	found := f.joined(it.Op, Truth{}, x.leaf(0), y.leaf(0))
	for at := 1; at < codes; at++ {
		found = f.joined(between, Truth{}, found, f.joined(it.Op, Truth{}, x.leaf(at), y.leaf(at)))
	}
	return found
}

// comparedWithNil is a comparison with nil of what one of its leaves tells it of: the lock of a map, the first cell of a pointer, or the
// length of a slice.
func (f *function) comparedWithNil(it *ast.BinaryExpr, x Value) (Value, bool) {
	none := single(Truth{}, "nil", false)
	switch shape := x.Shape.(type) {
	case Map:
		return f.joined(it.Op, Truth{}, x.leaf(0), none), true
	case Union, AnyFunc:
		return f.joined(it.Op, Truth{}, x.leaf(0), number(0)), true
	case Grow, List:
		f.refuse(it, "slices", "whether a slice is nil is not known", "compare its length with 0")
	case Func:
		return single(Truth{}, map[token.Token]string{token.EQL: "false", token.NEQ: "true"}[it.Op], false), true
	case Ref:
		for at, isCell := range shape.cells() {
			if _, isList := shape.Of.(List); isCell && !isList {
				f.needsCheck = true
				return f.joined(it.Op, Truth{}, x.leaf(at), none), true
			}
		}
	}
	return Value{}, false
}

// leaf is one leaf as a value. An expression of which nothing is known but its text binds as its operators do.
func (v Value) leaf(at int) Value {
	binds := v.Binds
	if len(v.Code) > 1 && strings.Contains(v.Code[at], " ") {
		binds = 0
	}
	return Value{Shape: v.Shape, Code: v.Code[at : at+1], Binds: binds, Acts: v.Acts}
}
