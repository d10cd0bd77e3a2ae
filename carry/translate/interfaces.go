package translate

import (
	"go/ast"
	"go/token"
	"go/types"
)

// onlyType is the type that stands behind an interface of the program, where one type alone has its methods; else nil.
func (f *facts) onlyType(t types.Type) types.Type {
	if found := f.typesBehind(t); len(found) == 1 {
		return found[0]
	}
	return nil
}

// typesBehind are the types that have the methods of an interface of the program.
func (f *facts) typesBehind(t types.Type) []types.Type {
	named, ok := t.(*types.Named)
	if !ok || named.Obj().Pkg() != f.src.Pkg || named.TypeParams().Len() > 0 {
		return nil
	}
	wanted, ok := named.Underlying().(*types.Interface)
	if !ok || wanted.NumMethods() == 0 {
		return nil
	}
	var found []types.Type
	for _, name := range f.src.Pkg.Scope().Names() {
		object, ok := f.src.Pkg.Scope().Lookup(name).(*types.TypeName)
		if !ok || object.IsAlias() {
			continue
		}
		if it := f.implementing(object.Type(), wanted); it != nil {
			found = append(found, it)
		}
	}
	return found
}

// implementing is a type, or the one of pointers to it, that has the methods of an interface.
func (f *facts) implementing(t types.Type, wanted *types.Interface) types.Type {
	named, ok := t.(*types.Named)
	if _, isInterface := under(t).(*types.Interface); !ok || isInterface || named.TypeParams().Len() > 0 {
		return nil
	}
	pointer := types.NewPointer(t)
	switch {
	case !types.Implements(pointer, wanted):
		return nil
	case !types.Implements(t, wanted) || f.isPointedTo(t):
		return pointer
	}
	return t
}

// isPointedTo says whether the program makes a value of a type by its address.
func (f *facts) isPointedTo(t types.Type) bool {
	found := false
	ast.Inspect(f.src.File, func(node ast.Node) bool {
		if it, ok := node.(*ast.UnaryExpr); ok && it.Op == token.AND {
			_, isLiteral := unparen(it.X).(*ast.CompositeLit)
			found = found || isLiteral && types.Identical(f.typeOf(it.X), t)
		}
		return true
	})
	return found
}

// ofOnlyType calls a method of an interface that has one type behind it.
func (f *function) ofOnlyType(it *ast.CallExpr, selector *ast.SelectorExpr, concrete types.Type, name string) []Value {
	object, path, _ := types.LookupFieldOrMethod(concrete, true, f.src.Pkg, name)
	known := f.declared[object]
	if known == nil || len(path) > 1 {
		f.refuse(it, "interfaces", "a method that comes from an embedded field is not carried here", "write the method for the type itself")
	}
	receiver := f.value(selector.X)
	if _, ok := receiver.Shape.(Ref); ok && !isPointer(known.sign.Recv().Type()) {
		receiver = f.read(f.pointee(receiver))
	}
	before := len(f.instance.pieces)
	arguments := f.arguments(it.Args)
	if len(f.instance.pieces) > before && receiver.Acts {
		f.refuse(it, "methods", "a receiver that is found before such arguments is not carried", "put it into a variable first")
	}
	values := f.fitAll(it, known.sign, arguments, it.Ellipsis != token.NoPos)
	return f.invoke(f.prepare(it, Value{Shape: Func{Body: known}}, &receiver, values))
}
