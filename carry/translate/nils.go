package translate

import (
	"go/ast"
	"go/types"
)

// mayBeNil sees to it that a pointer that may be nil stops the program where it is used: all fields to which it leads lie in cells, which
// are nil, too. A tool among them is looked at before it is used.
func (f *function) mayBeNil(pointer Ref, node ast.Node) {
	f.needsCheck = true
	hasTools, hasValues := fixedIn(pointer.Of)
	if hasTools && !f.nilTools {
		f.facts.nilTools, f.isRelaid = true, true
	}
	if !hasValues {
		return
	}
	record, ok := pointer.Of.(Record)
	if !ok || f.src.Pkg.Scope().Lookup(record.Name) == nil {
		f.refuse(node, "pointers", "a pointer that may be nil to a value with fields that never change is not carried", "use a truth value beside it")
	}
	f.noteWhole(f.src.Pkg.Scope().Lookup(record.Name).Type())
	f.isRelaid = true
}

// fixedIn says whether tools lie in a shape, and whether values do that are not in cells.
func fixedIn(shape Shape) (hasTools, hasValues bool) {
	record, ok := shape.(Record)
	if !ok {
		_, isFixed := shape.(Tool)
		return isFixed, false
	}
	for _, field := range record.Fields {
		inTools, inValues := fixedIn(field.Shape)
		_, isRecord := field.Shape.(Record)
		hasTools, hasValues = hasTools || inTools, hasValues || inValues
		if field.Fixed && !inTools && (!isRecord || !inValues) && len(field.Shape.leaves()) > 0 {
			hasValues = true
		}
	}
	return hasTools, hasValues
}

// checkTool stops the program where a tool lies behind a pointer that is nil.
func (f *function) checkTool(of ast.Expr, code string) {
	if !f.nilTools || !f.isBehindPointer(of) {
		return
	}
	f.open("if " + code + " == nil {")
	f.emit(f.fault("nil_dereference") + "()")
	f.close()
}

// isBehindPointer says whether a value is reached over a pointer.
func (f *facts) isBehindPointer(e ast.Expr) bool {
	if isPointer(f.typeOf(e)) && toolOf(f.typeOf(e)) == "" {
		return true
	}
	switch it := unparen(e).(type) {
	case *ast.SelectorExpr:
		choice := f.src.Info.Selections[it]
		return choice != nil && choice.Kind() == types.FieldVal && (choice.Indirect() || f.isBehindPointer(it.X))
	case *ast.IndexExpr:
		return f.isBehindPointer(it.X)
	}
	return false
}
