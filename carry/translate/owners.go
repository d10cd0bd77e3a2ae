package translate

import (
	"go/ast"
	"go/types"
)

// ownerOf is the variable, or the field, that an expression names; nil where it names none.
func (f *facts) ownerOf(e ast.Expr) types.Object {
	switch it := unparen(e).(type) {
	case *ast.Ident:
		return f.object(it)
	case *ast.SelectorExpr:
		if choice := f.src.Info.Selections[it]; choice != nil {
			return choice.Obj()
		}
	}
	return nil
}

// refuseTwoOwners refuses a slice that is appended to, if it begins as another one or as a part of one. In Go the two share elements, or
// do so no more, by the room that there is.
func (f *function) refuseTwoOwners(to types.Object, from ast.Expr) {
	if to == nil || !f.grown[to] {
		return
	}
	slice, ok := under(to.Type()).(*types.Slice)
	if !ok {
		return
	}
	_, isPart := unparen(from).(*ast.SliceExpr)
	isOther := f.hasPlace(from) && f.ownerOf(from) != to && f.slices[slice.Elem().String()]
	if isPart || isOther {
		f.refuse(from, "slices", "a slice that is appended to and shares elements with another one is not carried", "append to a copy: append([]T{}, x...)")
	}
}
