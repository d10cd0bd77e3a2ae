package translate

import (
	"go/ast"
	"go/token"
	"go/types"
)

// assignAll assigns values to what stands on the left, and declares what is new there.
func (f *function) assignAll(it *ast.AssignStmt, to []ast.Expr, values []Value) {
	if len(to) != len(values) {
		f.refuse(it, "results", "this assignment is not carried", "")
	}
	if it.Tok == token.DEFINE {
		f.define(it, to, values)
		return
	}
	var places []place
	for at, e := range to {
		if name, ok := e.(*ast.Ident); ok && name.Name == "_" {
			places = append(places, place{})
			continue
		}
		before := len(f.instance.pieces)
		places = append(places, f.place(e))
		if len(f.instance.pieces) > before {
			for n := range values {
				if values[n].Acts && n >= at {
					f.refuse(it, "arrays", "an index that is looked up beside this value is not carried", "put the value into a variable first")
				}
			}
		}
	}
	f.storeAll(places, values, it)
}

// define declares names. Those that are new and not shared stand in one definition.
func (f *function) define(it *ast.AssignStmt, to []ast.Expr, values []Value) {
	isPlain := true
	for at, e := range to {
		object := f.src.Info.Defs[e.(*ast.Ident)]
		isPlain = isPlain && object != nil && !f.isShared(object, f.options.SharesLoops) && len(values[at].Code) > 0
	}
	if isPlain && len(to) > 1 {
		var names, codes []string
		for at, e := range to {
			object := f.src.Info.Defs[e.(*ast.Ident)]
			value := f.fitVariable(values[at], object, e)
			own := f.leafNames(object.Name(), value.Shape)
			f.bound[object] = &binding{shape: value.Shape, names: own}
			names, codes = append(names, own...), append(codes, f.typedCodes(value)...)
		}
		f.emit(commas(names) + " := " + commas(codes))
		return
	}
	if len(to) > 1 {
		for at := range values {
			if values[at].Acts && at+1 < len(values) {
				values[at] = f.spill(values[at], "value")
			}
		}
	}
	for at, e := range to {
		name := e.(*ast.Ident)
		object := f.src.Info.Defs[name]
		switch {
		case object != nil:
			f.declare(e, f.fitVariable(values[at], object, e))
		case name.Name == "_":
			f.declare(e, values[at])
		default:
			f.store(f.place(e), values[at], it)
		}
	}
}

// lengthen is `x += y` of texts.
func (f *function) lengthen(it *ast.AssignStmt) {
	if index, ok := it.Lhs[0].(*ast.IndexExpr); ok && !f.isSteady(index.Index) {
		f.refuse(it, "made-texts", "this text is not made longer", "put the index into a variable first")
	}
	sum := &ast.BinaryExpr{X: it.Lhs[0], OpPos: it.TokPos, Op: token.ADD, Y: it.Rhs[0]}
	f.src.Info.Types[sum] = types.TypeAndValue{Type: f.typeOf(it.Lhs[0])}
	f.store(f.place(it.Lhs[0]), f.madeText(sum), it)
}
