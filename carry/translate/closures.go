package translate

import (
	"go/ast"
	"go/token"
	"go/types"
)

// closure is a function literal: a function of its own, which is given what the literal holds of the variables around it.
func (f *function) closure(it *ast.FuncLit) Value {
	known := f.bodies[it]
	if known == nil {
		f.refuse(it, "functions", "this function is not carried", "")
	}
	shape := Func{Body: known}
	found := Value{Binds: atom}
	for _, object := range known.held {
		held := f.bound[object]
		if held == nil {
			if f.bad[object] {
				panic(obstacle{})
			}
			f.refuse(it, "closures", "a function that uses itself, or a variable that is declared later, is not carried", "declare it as a function of the package")
		}
		shape.Held = append(shape.Held, held.shape)
		found.Code = append(found.Code, held.names...)
	}
	found.Shape = shape
	f.carry(it, "closure", "the function stands by itself as "+known.name+", and is given what it holds")
	return found
}

// methodValue is a method of the program with its receiver, if an expression is that.
func (f *function) methodValue(e ast.Expr) (Value, bool) {
	selector, ok := e.(*ast.SelectorExpr)
	if !ok {
		return Value{}, false
	}
	choice := f.src.Info.Selections[selector]
	if choice == nil || choice.Kind() != types.MethodVal || f.declared[choice.Obj()] == nil {
		return Value{}, false
	}
	known := f.declared[choice.Obj()]
	receiver := f.receiver(selector, known.sign.Recv().Type(), choice)
	if receiver.Acts {
		receiver = f.spill(receiver, "receiver")
	}
	f.carry(e, "closure", "the method stands by itself as "+known.name+", and is given its receiver")
	return Value{Shape: Func{Body: known, Receiver: receiver.Shape}, Code: receiver.Code, Binds: atom}, true
}

// drop writes calls whose results nobody takes.
func (f *function) drop(values []Value) {
	for _, value := range values {
		if value.Acts && len(value.Code) == 1 {
			f.emit(value.Code[0])
		}
	}
}

// declareGlobals declares the variables of the package at the beginning of `main`: those without a value, and then the others in the
// order in which Go gives them values.
func (f *function) declareGlobals() {
	for _, it := range f.src.File.Decls {
		decl, ok := it.(*ast.GenDecl)
		if !ok || decl.Tok != token.VAR {
			continue
		}
		for _, spec := range decl.Specs {
			if values := spec.(*ast.ValueSpec); len(values.Values) == 0 {
				for _, name := range values.Names {
					f.attempt(name, func() { f.declareZero(name) })
					f.global(f.src.Info.Defs[name])
				}
			}
		}
	}
	for _, init := range f.src.Info.InitOrder {
		f.globalValue(init)
	}
}

func (f *function) global(object types.Object) {
	if object != nil && f.bound[object] != nil {
		f.globals[object] = f.bound[object]
	} else if object != nil {
		f.bad[object] = true
	}
}

func (f *function) globalValue(init *types.Initializer) {
	f.attempt(init.Rhs, func() {
		values := f.arguments([]ast.Expr{init.Rhs})
		for at, object := range init.Lhs {
			if object.Name() != "_" {
				f.bind(object, f.fitVariable(values[at], object, init.Rhs))
			}
		}
	})
	for _, object := range init.Lhs {
		f.global(object)
	}
}
