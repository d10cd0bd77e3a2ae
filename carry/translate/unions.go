package translate

import (
	"go/ast"
	"go/token"
	"go/types"
)

// Union is a value of an interface with several types behind it: the number of its type, or 0 for nil, and room for a value of each.
type Union struct {
	Name  string
	Types []types.Type
	Of    []Shape
}

func (s Union) leaves() []Leaf {
	found := []Leaf{{Suffix: "type", Type: "int"}}
	for at, shape := range s.Of {
		for _, leaf := range shape.leaves() {
			leaf.Suffix, leaf.Fixed = join(nameOf(s.Types[at]), leaf.Suffix), false
			found = append(found, leaf)
		}
	}
	return found
}

func (s Union) key() string { return "interface " + s.Name }

// part is where the leaves of one of the types begin.
func (s Union) part(at int) int {
	from := 1
	for _, shape := range s.Of[:at] {
		from += len(shape.leaves())
	}
	return from
}

// unionOf is the shape of an interface of the program, if several types have its methods.
func (f *function) unionOf(t types.Type, node ast.Node) (Union, bool) {
	behind := f.typesBehind(t)
	if len(behind) < 2 {
		return Union{}, false
	}
	name := "interface " + types.TypeString(t, nil)
	if f.records[name] {
		f.refuse(node, "interfaces", "a type behind an interface that holds the interface is not carried", "use a type for each level")
	}
	f.records[name] = true
	defer delete(f.records, name)
	f.change(node, "interfaces", "several types have the methods of this interface: a number says which one stands behind it")
	found := Union{Name: nameOf(t), Types: behind}
	for _, it := range behind {
		found.Of = append(found.Of, f.shapeOf(it, node))
	}
	return found, true
}

// inUnion is a value as one of an interface.
func (f *function) inUnion(value Value, shape Union, node ast.Node) Value {
	chosen := -1
	for at, one := range shape.Of {
		if one.key() == value.Shape.key() {
			if chosen >= 0 {
				f.refuse(node, "interfaces", "two types behind this interface have one form, which is not carried", "let them be structs")
			}
			chosen = at
		}
	}
	if chosen < 0 {
		f.refuse(node, "interfaces", "this type behind an interface is not carried", "make it by its address, or by its value, everywhere")
	}
	found := f.nothingIn(shape)
	found.Code[0] = itoa(chosen + 1)
	copy(found.Code[shape.part(chosen):], value.Code)
	found.Acts = value.Acts
	return found
}

// nothingIn is nil as a value of an interface.
func (f *function) nothingIn(shape Union) Value {
	found := Value{Shape: shape, Binds: atom}
	for _, leaf := range shape.leaves() {
		found.Code = append(found.Code, f.typedZero(leaf.Type))
	}
	return found
}

// A choiceOf is a call for one of the types behind an interface.
type choiceOf struct {
	condition string
	to        callee
}

// choices are the calls of a method of an interface, one for each type behind it.
func (f *function) choices(it *ast.CallExpr, selector *ast.SelectorExpr, name string) []choiceOf {
	receiver := f.value(selector.X)
	shape, ok := receiver.Shape.(Union)
	if !ok {
		f.refuse(it, "interfaces", "this call of a method is not carried", "use the type that stands behind the interface")
	}
	if receiver.Acts {
		receiver = f.spill(receiver, "receiver")
	}
	arguments := f.arguments(it.Args)
	for at := range arguments {
		if arguments[at].Acts {
			arguments[at] = f.spill(arguments[at], "argument")
		}
	}
	var found []choiceOf
	for at, t := range shape.Types {
		object, path, _ := types.LookupFieldOrMethod(t, true, f.src.Pkg, name)
		known := f.declared[object]
		if known == nil || len(path) > 1 {
			f.refuse(it, "interfaces", "a method that comes from an embedded field is not carried here", "write the method for the type itself")
		}
		own := receiver.part(shape.part(at), shape.Of[at])
		if _, isRef := own.Shape.(Ref); isRef && !isPointer(known.sign.Recv().Type()) {
			own = f.read(f.pointee(own))
		}
		values := f.fitAll(it, known.sign, append([]Value(nil), arguments...), it.Ellipsis != token.NoPos)
		to := f.prepare(it, Value{Shape: Func{Body: known}}, &own, values)
		found = append(found, choiceOf{receiver.Code[0] + " == " + itoa(at+1), to})
	}
	return found
}

// ofUnion calls a method of an interface with several types behind it.
func (f *function) ofUnion(it *ast.CallExpr, selector *ast.SelectorExpr, name string) []Value {
	return f.chosen(it, f.choices(it, selector, name))
}

// chosen calls one of several functions, and gives its results.
func (f *function) chosen(it *ast.CallExpr, list []choiceOf) []Value {
	if len(list) == 0 {
		f.emit(f.fault("nil_dereference") + "()")
		return nil
	}
	results := list[0].to.instance.results
	var names []string
	for at, shape := range results {
		for _, one := range list[1:] {
			if one.to.instance.results[at].key() != shape.key() {
				f.refuse(it, "interfaces", "the results of what may be called here have different forms", "let them have one")
			}
		}
		for _, leaf := range shape.leaves() {
			name := f.temporary("result")
			f.emit("var " + name + " " + leaf.Type)
			names = append(names, name)
		}
	}
	f.eachChoice(list, func(to callee) {
		var codes []string
		values := f.invoke(to)
		for _, value := range values {
			codes = append(codes, value.Code...)
		}
		if len(codes) > 0 {
			f.emit(commas(names) + " = " + commas(codes))
		}
	})
	found := split(results, names)
	for at := range found {
		found[at].Acts = false
	}
	return found
}

// eachChoice writes a case for each type behind an interface.
func (f *function) eachChoice(list []choiceOf, do func(callee)) {
	for at, one := range list {
		if at == 0 {
			f.open("if " + one.condition + " {")
		} else {
			f.turn("} else if " + one.condition + " {")
		}
		do(one.to)
	}
	f.turn("} else {")
	f.emit(f.fault("nil_dereference") + "()")
	f.close()
}

// startsOfUnion is `go x.f(..)` of an interface with several types behind it, if it is that.
func (f *function) startsOfUnion(it *ast.GoStmt) bool {
	selector, ok := unparen(it.Call.Fun).(*ast.SelectorExpr)
	if !ok {
		return false
	}
	choice := f.src.Info.Selections[selector]
	if choice == nil || choice.Kind() != types.MethodVal || len(f.typesBehind(choice.Recv())) < 2 {
		return false
	}
	f.eachChoice(f.choices(it.Call, selector, choice.Obj().Name()), func(to callee) { f.emit("go " + f.started(to)) })
	return true
}

// asserted is a value of an interface as one of a type, and the condition under which it is that.
func (f *function) asserted(value Value, t types.Type, node ast.Node) (Value, string) {
	shape, ok := value.Shape.(Union)
	if ok {
		for at, one := range shape.Types {
			if types.Identical(one, t) {
				return value.part(shape.part(at), shape.Of[at]), value.Code[0] + " == " + itoa(at+1)
			}
		}
	}
	f.refuse(node, "interfaces", "an assertion of this type is not carried", "use the type that stands behind it")
	return Value{}, ""
}

// assertion is `x.(T)`, which stops the program where another type stands behind the interface.
func (f *function) assertion(it *ast.TypeAssertExpr) Value {
	value := f.spill(f.value(it.X), "asserted")
	found, condition := f.asserted(value, f.typeOf(it.Type), it)
	f.open("if !(" + condition + ") {")
	f.emit(f.fault("interface_conversion") + "()")
	f.close()
	return found
}

// assertionOfTwo is `v, ok := x.(T)`.
func (f *function) assertionOfTwo(it *ast.AssignStmt, asked *ast.TypeAssertExpr) {
	value := f.spill(f.value(asked.X), "asserted")
	found, condition := f.asserted(value, f.typeOf(asked.Type), it)
	f.assignAll(it, it.Lhs, []Value{found, {Shape: Truth{}, Code: []string{condition}, Binds: precedence[token.EQL]}})
}

// typeSwitch is a switch over the types behind an interface.
func (f *function) typeSwitch(it *ast.TypeSwitchStmt, label string) {
	if it.Init != nil {
		f.carryOver(it.Init, "")
	}
	x := switchedOver(it)
	if len(f.typesBehind(f.typeOf(x))) < 2 || label != "" || leavesSwitch(it.Body) {
		f.refuse(it, "interfaces", "this switch over types is not carried", "use the type that stands behind the interface")
	}
	value := f.spill(f.value(x), "asserted")
	f.carry(it, "switch", "a switch is a chain of ifs")
	var last *ast.CaseClause
	opened := false
	for _, stmt := range it.Body.List {
		one := stmt.(*ast.CaseClause)
		if one.List == nil {
			last = one
			continue
		}
		f.at = one.Pos()
		part, condition := f.typeCase(one, value)
		if opened {
			f.turn("} else if " + condition + " {")
		} else {
			f.open("if " + condition + " {")
		}
		opened = true
		f.typeCaseBody(one, part)
	}
	if last != nil && opened {
		f.turn("} else {")
	} else if last != nil {
		f.open("{")
	}
	if last != nil {
		f.typeCaseBody(last, value)
	}
	f.at = it.Body.Rbrace
	f.close()
}

// switchedOver is the value whose type a switch asks for.
func switchedOver(it *ast.TypeSwitchStmt) ast.Expr {
	asked, ok := it.Assign.(*ast.ExprStmt)
	if !ok {
		return unparen(it.Assign.(*ast.AssignStmt).Rhs[0]).(*ast.TypeAssertExpr).X
	}
	return unparen(asked.X).(*ast.TypeAssertExpr).X
}

// typeCase is what a case of a switch over types asks for, and the value as the case has it.
func (f *function) typeCase(one *ast.CaseClause, value Value) (Value, string) {
	part, conditions := value, ""
	for _, e := range one.List {
		condition := value.Code[0] + " == 0"
		if !f.src.Info.Types[e].IsNil() {
			found, own := f.asserted(value, f.typeOf(e), e)
			condition = own
			if len(one.List) == 1 {
				part = found
			}
		}
		if conditions != "" {
			conditions += " || "
		}
		conditions += condition
	}
	return part, conditions
}

func (f *function) typeCaseBody(one *ast.CaseClause, part Value) {
	if object := f.src.Info.Implicits[one]; object != nil {
		f.bind(object, part)
	}
	f.block(one.Body)
}
