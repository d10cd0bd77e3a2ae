package translate

import (
	"go/ast"
	"go/token"
	"go/types"
)

// eachAssigned goes through all that a part of the program assigns to.
func (f *facts) eachAssigned(node ast.Node, do func(ast.Expr)) {
	ast.Inspect(node, func(it ast.Node) bool {
		switch stmt := it.(type) {
		case *ast.AssignStmt:
			for _, to := range stmt.Lhs {
				if name, ok := to.(*ast.Ident); !ok || stmt.Tok != token.DEFINE || f.src.Info.Defs[name] == nil {
					do(to)
				}
			}
		case *ast.IncDecStmt:
			do(stmt.X)
		case *ast.RangeStmt:
			if stmt.Tok == token.ASSIGN {
				for _, to := range []ast.Expr{stmt.Key, stmt.Value} {
					if to != nil {
						do(to)
					}
				}
			}
		}
		return true
	})
}

// root is the variable that a place lies in, if it lies in one and not behind a pointer or in a slice.
func (f *facts) root(place ast.Expr) types.Object {
	switch it := place.(type) {
	case *ast.Ident:
		return f.object(it)
	case *ast.ParenExpr:
		return f.root(it.X)
	case *ast.SelectorExpr:
		if choice := f.src.Info.Selections[it]; choice != nil && !choice.Indirect() && !isPointer(f.typeOf(it.X)) {
			return f.root(it.X)
		}
	case *ast.IndexExpr:
		if _, ok := under(f.typeOf(it.X)).(*types.Array); ok {
			return f.root(it.X)
		}
	}
	return nil
}

// findAssignments finds what is assigned to, and whose address is taken.
func (f *facts) findAssignments() {
	f.eachAssigned(f.src.File, f.noteAssigned)
	ast.Inspect(f.src.File, func(node ast.Node) bool {
		switch it := node.(type) {
		case *ast.UnaryExpr:
			if it.Op == token.AND {
				f.noteAddress(it.X)
			}
		case *ast.SliceExpr:
			if _, ok := under(f.typeOf(it.X)).(*types.Array); ok {
				f.noteAddress(it.X)
			}
		case *ast.SelectorExpr:
			f.noteMethod(it)
		case *ast.CallExpr:
			if slice, ok := f.isCopy(it); ok {
				f.slices[slice.Elem().String()] = true
			}
		case *ast.ValueSpec:
			f.noteSpec(it)
		case *ast.AssignStmt:
			if it.Tok == token.DEFINE && len(it.Lhs) == len(it.Rhs) {
				for at := range it.Lhs {
					f.noteInitial(it.Lhs[at], it.Rhs[at])
				}
			}
		}
		return true
	})
}

func (f *facts) noteSpec(spec *ast.ValueSpec) {
	for at, name := range spec.Names {
		if len(spec.Values) == len(spec.Names) {
			f.noteInitial(name, spec.Values[at])
		}
	}
}

func (f *facts) noteInitial(to, value ast.Expr) {
	if name, ok := to.(*ast.Ident); ok {
		if object := f.src.Info.Defs[name]; object != nil {
			f.initial[object] = value
		}
	}
}

func (f *facts) noteAssigned(to ast.Expr) {
	if object := f.root(to); object != nil {
		f.assigned[object] = true
	}
	for {
		if paren, ok := to.(*ast.ParenExpr); ok {
			to = paren.X
			continue
		}
		break
	}
	f.noteWhole(f.typeOf(to))
	f.noteParts(to)
}

// noteParts notes the fields, and the elements, through which a place is reached that is assigned to.
func (f *facts) noteParts(to ast.Expr) {
	switch it := to.(type) {
	case *ast.ParenExpr:
		f.noteParts(it.X)
	case *ast.SelectorExpr:
		choice := f.src.Info.Selections[it]
		if choice == nil || choice.Kind() != types.FieldVal {
			return
		}
		t := f.typeOf(it.X)
		for _, at := range choice.Index() {
			if pointer, ok := under(t).(*types.Pointer); ok {
				t = pointer.Elem()
			}
			record, ok := under(t).(*types.Struct)
			if !ok {
				return
			}
			f.writtenFields[record.Field(at)] = true
			t = record.Field(at).Type()
		}
		if !isPointer(f.typeOf(it.X)) {
			f.noteParts(it.X)
		}
	case *ast.IndexExpr:
		f.noteElement(it)
		if _, ok := under(f.typeOf(it.X)).(*types.Array); ok {
			f.noteParts(it.X)
		}
	}
}

// noteElement notes that an element is assigned to, or that its address is taken.
func (f *facts) noteElement(it *ast.IndexExpr) {
	switch t := under(f.typeOf(it.X)).(type) {
	case *types.Slice:
		f.slices[t.Elem().String()] = true
		if name, ok := it.X.(*ast.Ident); ok && f.grown[f.object(name)] {
			f.indexed[f.object(name)] = true
		}
	case *types.Array:
		if f.src.Info.Types[it.Index].Value == nil {
			if object := f.root(it.X); object != nil {
				f.indexed[object] = true
			}
		}
	}
}

// noteWhole notes that all fields of a struct are assigned to.
func (f *facts) noteWhole(t types.Type) {
	if record, ok := under(t).(*types.Struct); ok {
		for at := 0; at < record.NumFields(); at++ {
			f.writtenFields[record.Field(at)] = true
			f.noteWhole(record.Field(at).Type())
		}
	}
}

func (f *facts) noteAddress(of ast.Expr) {
	if object := f.root(of); object != nil {
		f.addressed[object] = true
	}
	if toolOf(f.typeOf(of)) == "" {
		f.noteParts(of)
	}
}

// noteMethod notes the variable whose address a call of a method takes.
func (f *facts) noteMethod(it *ast.SelectorExpr) {
	choice := f.src.Info.Selections[it]
	if choice == nil || choice.Kind() != types.MethodVal {
		return
	}
	sign, ok := choice.Obj().Type().(*types.Signature)
	if ok && sign.Recv() != nil && isPointer(sign.Recv().Type()) && toolOf(f.typeOf(it.X)) == "" {
		path := choice.Index()
		last := f.notePath(f.typeOf(it.X), path[:len(path)-1])
		if !isPointer(f.typeOf(it.X)) && !isPointer(last) {
			f.noteAddress(it.X)
		}
	}
}

// notePath notes the embedded fields through which a method is found whose receiver is a pointer, and gives the type of the last one.
func (f *facts) notePath(t types.Type, path []int) types.Type {
	for _, at := range path {
		if pointer, ok := under(t).(*types.Pointer); ok {
			t = pointer.Elem()
		}
		record, ok := under(t).(*types.Struct)
		if !ok {
			break
		}
		field := record.Field(at)
		if !isPointer(field.Type()) && toolOf(field.Type()) == "" {
			f.writtenFields[field] = true
		}
		t = field.Type()
	}
	return t
}
