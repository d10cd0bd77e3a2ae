package translate

import (
	"go/ast"
	"go/token"
	"go/types"
)

// Go orders calls, receives and the operators && and || of a statement, and leaves open when a variable beside them is read. Its
// compiler finds those first, in the order of the text, and then reads the variables. So does the carried program.

// callsFirst finds the calls of a list of expressions, where something that others may change stands before one of them. It gives
// the function that forgets them again.
func (f *function) callsFirst(list []ast.Expr) (forget func()) {
	calls, isRead := f.orderedIn(list)
	if !isRead {
		return func() {}
	}
	for _, call := range calls {
		f.attempt(call, func() {
			value := f.value(call)
			if value.Acts {
				value = f.spill(value, "value")
			}
			f.early[call] = value
		})
	}
	return func() {
		for _, call := range calls {
			delete(f.early, call)
		}
	}
}

// orderedIn are the parts of expressions that Go finds in the order of the text, and whether something that others may change is read
// before one of them.
func (f *function) orderedIn(list []ast.Expr) (calls []ast.Expr, isRead bool) {
	reads := false
	var around []ast.Node
	visit := func(node ast.Node) bool {
		if node == nil { // behind a node and its parts
			last := len(around) - 1
			e, ok := around[last].(ast.Expr)
			reads, around = reads || ok && f.readsShared(e), around[:last]
			return false
		}
		e, ok := node.(ast.Expr)
		switch {
		case ok && f.isOrdered(e):
			calls, isRead = append(calls, e), isRead || reads
			return false
		case ok && (isLiteral(e) || isAddress(e) || f.src.Info.Types[e].Value != nil):
			return false
		}
		around = append(around, node)
		return true
	}
	for _, e := range list {
		ast.Inspect(e, visit)
	}
	return calls, isRead
}

func isLiteral(e ast.Expr) bool {
	_, ok := e.(*ast.FuncLit)
	return ok
}

// isOrdered says whether an expression is one that Go finds in the order of the text.
func (f *function) isOrdered(e ast.Expr) bool {
	switch it := e.(type) {
	case *ast.UnaryExpr:
		return it.Op == token.ARROW
	case *ast.BinaryExpr:
		return (it.Op == token.LAND || it.Op == token.LOR) && f.src.Info.Types[it].Value == nil
	case *ast.CallExpr:
		fun := unparen(it.Fun)
		name, ok := fun.(*ast.Ident)
		if ok {
			_, ok = f.object(name).(*types.Builtin)
		}
		return !ok && !f.src.Info.Types[fun].IsType() && f.spoken[it] == nil
	}
	return false
}

// isAddress says whether an expression is the address of a variable, for which nothing is read.
func isAddress(e ast.Expr) bool {
	it, ok := e.(*ast.UnaryExpr)
	if !ok || it.Op != token.AND {
		return false
	}
	_, isNew := unparen(it.X).(*ast.CompositeLit)
	return !isNew
}

// readsShared says whether an expression by itself reads what others may change.
func (f *function) readsShared(e ast.Expr) bool {
	switch it := e.(type) {
	case *ast.Ident:
		object, ok := f.object(it).(*types.Var)
		return ok && !object.IsField() && toolOf(object.Type()) == "" && f.isShared(object, f.options.SharesLoops)
	case *ast.SelectorExpr:
		choice := f.src.Info.Selections[it]
		if choice == nil || choice.Kind() != types.FieldVal {
			return false
		}
		return f.writtenFields[choice.Obj().(*types.Var)] && (choice.Indirect() || isPointer(f.typeOf(it.X)))
	case *ast.IndexExpr:
		slice, ok := under(f.typeOf(it.X)).(*types.Slice)
		return f.isMap(it.X) || ok && f.slices[slice.Elem().String()]
	case *ast.StarExpr:
		return true
	}
	return false
}
