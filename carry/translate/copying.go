package translate

import (
	"go/ast"
	"go/types"
)

// isCopy is the type of what is copied to, if a call is one of `copy`.
func (f *facts) isCopy(it *ast.CallExpr) (*types.Slice, bool) {
	name, ok := unparen(it.Fun).(*ast.Ident)
	if !ok || len(it.Args) != 2 {
		return nil, false
	}
	builtin, ok := f.src.Info.Uses[name].(*types.Builtin)
	if !ok || builtin.Name() != "copy" {
		return nil, false
	}
	slice, ok := under(f.typeOf(it.Args[0])).(*types.Slice)
	return slice, ok
}

// elementsOf is where the elements of a slice lie, and its length.
func (f *function) elementsOf(value Value, node ast.Node) (List, place, string) {
	if value.Acts {
		value = f.spill(value, "slice")
	}
	where := f.pointee(value)
	switch shape := where.shape.(type) {
	case Grow:
		return shape.room(), f.roomOf(shape, where), value.Code[0]
	case List:
		if shape.Len > 0 {
			return shape, where, itoa(shape.Len)
		}
	}
	f.refuse(node, "slices", "copy is not carried here", "write a loop over the elements")
	return List{}, place{}, ""
}

// copies is `copy(to, from)`: the elements one by one, as many as the shorter one has.
func (f *function) copies(it *ast.CallExpr) Value {
	if part, ok := unparen(it.Args[0]).(*ast.SliceExpr); ok && part.Low != nil && types.ExprString(part.X) == types.ExprString(it.Args[1]) {
		f.refuse(it, "slices", "a copy of a slice into a part of itself is not carried", "write a loop from the last element on")
	}
	values := f.all(it.Args)
	to, into, room := f.elementsOf(values[0], it)
	from, of, length := f.elementsOf(values[1], it)
	count := f.temporary("count")
	f.emit(count + " := " + length)
	f.open("if " + count + " > " + room + " {")
	f.emit(count + " = " + room)
	f.close()
	at := single(Num{}, f.temporary("at"), false)
	f.open("for " + at.one() + " := 0; " + at.one() + " < " + count + "; " + at.one() + "++ {")
	value := f.read(f.lookedUp(from, of, at, len(from.Elem.leaves())))
	f.store(f.lookedUp(to, into, at, len(to.Elem.leaves())), value, it)
	f.close()
	return single(Num{}, count, false)
}
