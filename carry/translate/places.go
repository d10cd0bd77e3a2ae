package translate

import (
	"go/ast"
	"go/token"
	"go/types"
	"strings"
)

// A place is where a value lies: of each leaf a variable, or a cell.
type place struct {
	shape Shape
	code  []string
	cells []bool
	entry *entry // of an element of a map
	first string // of a slice that is also taken from: the index of its first element, around which the others lie
}

func (f *function) variable(object types.Object, node ast.Node) place {
	known := f.bound[object]
	if known == nil {
		known = f.globals[object]
	}
	if known == nil {
		if !f.bad[object] && f.told.IsCarried() {
			f.refuse(node, "variables", object.Name()+" is not carried, since what it is declared with is not", "")
		}
		panic(obstacle{})
	}
	if ref, ok := known.shape.(Ref); ok && known.shared {
		return place{shape: ref.Of, code: known.names, cells: ref.cells()}
	}
	return place{shape: known.shape, code: known.names, cells: make([]bool, len(known.names))}
}

// place finds where an expression lies that has an address, or is a part of a value.
func (f *function) place(e ast.Expr) place {
	switch it := e.(type) {
	case *ast.Ident:
		return f.variable(f.object(it), it)
	case *ast.ParenExpr:
		return f.place(it.X)
	case *ast.StarExpr:
		return f.pointee(f.value(it.X))
	case *ast.SelectorExpr:
		return f.field(it)
	case *ast.IndexExpr:
		return f.element(it)
	}
	value := f.value(e)
	return place{shape: value.Shape, code: value.Code, cells: make([]bool, len(value.Code))}
}

// pointee is where a pointer leads.
func (f *function) pointee(pointer Value) place {
	ref, ok := pointer.Shape.(Ref)
	if !ok {
		return place{shape: pointer.Shape, code: pointer.Code, cells: make([]bool, len(pointer.Code))}
	}
	return place{shape: ref.Of, code: pointer.Code, cells: ref.cells()}
}

// hasPlace says whether an expression names a variable, or a part of one or of what a pointer leads to.
func (f *function) hasPlace(e ast.Expr) bool {
	switch it := e.(type) {
	case *ast.Ident:
		_, ok := f.object(it).(*types.Var)
		return ok
	case *ast.ParenExpr:
		return f.hasPlace(it.X)
	case *ast.StarExpr:
		return true
	case *ast.SelectorExpr:
		choice := f.src.Info.Selections[it]
		return choice != nil && choice.Kind() == types.FieldVal
	case *ast.IndexExpr:
		return true
	}
	return false
}

func (f *function) field(it *ast.SelectorExpr) place {
	choice := f.src.Info.Selections[it]
	if choice == nil {
		if object, ok := f.src.Info.Uses[it.Sel].(*types.Var); ok {
			return f.packageVariable(object, it)
		}
		f.refuse(it, "packages", types.ExprString(it)+" is not carried", "pass what it gives as a number")
	}
	if choice.Kind() != types.FieldVal {
		f.refuse(it, "methods", "a method as a value is not carried", "call it, or write a function around it")
	}
	where := f.start(it.X)
	t := f.typeOf(it.X)
	for _, at := range choice.Index() {
		where = f.step(where, t, at, it)
		t = fieldType(t, at)
	}
	return where
}

// start is where a part is looked for: a variable, or what a pointer leads to.
func (f *function) start(e ast.Expr) place {
	if isPointer(f.typeOf(e)) && toolOf(f.typeOf(e)) == "" {
		return f.pointee(f.value(e))
	}
	return f.settled(f.place(e))
}

// settled is a place that is no element of a map: of one it is a copy.
func (f *function) settled(where place) place {
	if where.entry == nil {
		return where
	}
	value := f.read(where)
	if value.Acts {
		value = f.spill(value, "value")
	}
	return place{shape: value.Shape, code: value.Code, cells: make([]bool, len(value.Code))}
}

func fieldType(t types.Type, at int) types.Type {
	if pointer, ok := under(t).(*types.Pointer); ok {
		t = pointer.Elem()
	}
	return under(t).(*types.Struct).Field(at).Type()
}

func (f *function) step(where place, t types.Type, at int, node ast.Node) place {
	if tool, ok := isTool(where.shape); ok {
		return f.toolField(where, tool, node)
	}
	if ref, ok := where.shape.(Ref); ok {
		where = f.pointee(f.read(where))
		_ = ref
	}
	record, ok := where.shape.(Record)
	if !ok {
		f.refuse(node, "structs", "this field is not carried", "")
	}
	name := record.Fields[at].Name
	from, shape := record.at(name)
	to := from + len(shape.leaves())
	return place{shape: shape, code: where.code[from:to], cells: where.cells[from:to]}
}

// toolField is a field of a tool: the channel of a timer, or the lock of a condition.
func (f *function) toolField(where place, tool Tool, node ast.Node) place {
	switch tool {
	case Timer:
		return place{shape: Chan{Unit{}}, code: where.code[:1], cells: where.cells[:1]}
	case Cond:
		return place{shape: Mutex, code: where.code[:1], cells: where.cells[:1]}
	}
	f.refuse(node, "packages", "this field is not carried", "")
	return place{}
}

// element is an element of an array or a slice. An index that is not known is looked up: what is found is a copy, or a cell.
func (f *function) element(it *ast.IndexExpr) place {
	if f.isMap(it.X) {
		return f.entryOf(it)
	}
	where := f.start(it.X)
	if _, ok := where.shape.(Ref); ok {
		where = f.pointee(f.read(where))
	}
	if grow, ok := where.shape.(Grow); ok {
		return f.grownElement(grow, where, f.value(it.Index))
	}
	list, ok := where.shape.(List)
	if !ok {
		f.refuse(it, "texts", "a part of a text is not carried", "hand the text on as a whole")
	}
	width := len(list.Elem.leaves())
	index := f.value(it.Index)
	if index.Number != nil {
		if *index.Number >= list.Len {
			f.refuse(it, "slices", "the index is out of range", "")
		}
		from := *index.Number * width
		return place{shape: list.Elem, code: where.code[from : from+width], cells: where.cells[from : from+width]}
	}
	if list.Len == 0 {
		f.refuse(it, "slices", "the slice has no elements", "")
	}
	return f.lookedUp(list, where, index, width)
}

func (f *function) lookedUp(list List, where place, index Value, width int) place {
	key := index.one()
	if where.first != "" {
		key = "(" + where.first + " + " + index.within(precedence[token.ADD]) + ") % " + itoa(mostGrown)
	}
	if width > 1 && (index.Acts || strings.ContainsAny(key, " (")) {
		key = f.temporary("index")
		f.emit(key + " := " + index.one())
	}
	found := place{shape: list.Elem}
	for at, leaf := range list.Elem.leaves() {
		t := leaf.Type
		var from []string
		for n := 0; n < list.Len; n++ {
			from = append(from, where.code[n*width+at])
		}
		if where.cells[at] {
			t = "chan " + t
		}
		found.code = append(found.code, f.index(list.Len, t)+"("+commas([]string{key}, from)+")")
		found.cells = append(found.cells, where.cells[at])
	}
	return found
}

// read looks at what lies in a place.
func (f *function) read(where place) Value {
	if where.entry != nil {
		return f.readEntry(where)
	}
	found := Value{Shape: where.shape, Binds: atom}
	for at, leaf := range where.shape.leaves() {
		code := where.code[at]
		if where.cells[at] {
			f.moves(where.shape)
			code, found.Acts = f.load(leaf.Type)+"("+code+")", true
		} else if strings.Contains(code, "(") {
			found.Acts = true
		}
		found.Code = append(found.Code, code)
	}
	return found
}

// store puts a value into a place.
func (f *function) store(where place, value Value, node ast.Node) {
	f.storeAll([]place{where}, []Value{value}, node)
}

// A storing is what is put into places at once: into variables, and into cells.
type storing struct {
	to, from []string
	cells    []stored
}

type stored struct{ into, code, t string }

// storeAll puts values into places at once.
func (f *function) storeAll(places []place, values []Value, node ast.Node) {
	var all storing
	for n, where := range places {
		if where.shape == nil { // the blank name
			for _, code := range values[n].Code {
				if values[n].Acts {
					all.to, all.from = append(all.to, "_"), append(all.from, code)
				}
			}
			continue
		}
		value := f.fit(values[n], where.shape, node)
		if where.entry != nil {
			f.storeEntry(where, value, node, len(places) > 1)
			return
		}
		f.addTo(&all, where, value, node)
	}
	if len(all.cells)+len(all.to) > 1 {
		for at := range all.cells {
			all.cells[at].code = f.held("value", all.cells[at].t, all.cells[at].code)
		}
	}
	if len(all.to) > 0 {
		f.emit(commas(all.to) + " = " + commas(all.from))
	}
	for _, it := range all.cells {
		f.emit(f.storing(it.t) + "(" + it.into + ", " + it.code + ")")
	}
}

// addTo adds the leaves of a value and of its place.
func (f *function) addTo(all *storing, where place, value Value, node ast.Node) {
	for at, leaf := range where.shape.leaves() {
		switch {
		case where.cells[at]:
			f.moves(where.shape)
			all.cells = append(all.cells, stored{where.code[at], value.Code[at], leaf.Type})
		case strings.Contains(where.code[at], "("):
			f.refuse(node, "arrays", "an element is assigned to that has no place", "")
		default:
			all.to, all.from = append(all.to, where.code[at]), append(all.from, value.Code[at])
		}
	}
}

// bind declares a variable of Go with a value.
func (f *function) bind(object types.Object, value Value) {
	shared := f.isShared(object, f.options.SharesLoops)
	if _, ok := value.Shape.(Tool); ok {
		shared = false
	}
	if _, ok := value.Shape.(Func); ok {
		shared = false
	}
	if !shared {
		names := f.leafNames(object.Name(), value.Shape)
		f.bound[object] = &binding{shape: value.Shape, names: names}
		if len(names) > 0 {
			f.emit(commas(names) + " := " + commas(f.typedCodes(value)))
		}
		return
	}
	ref := Ref{value.Shape}
	names := f.leafNames(object.Name(), ref)
	f.emit(commas(names) + " := " + commas(f.celled(value)))
	f.bound[object] = &binding{shape: ref, shared: true, names: names}
	f.carryShared(object)
}

// celled puts each leaf of a value that may change into a cell.
func (f *function) celled(value Value) []string {
	var found []string
	for at, leaf := range value.Shape.leaves() {
		code := value.Code[at]
		if !leaf.Fixed {
			code = f.cell(leaf.Type) + "(" + code + ")"
		}
		found = append(found, code)
	}
	return found
}

func (f *function) carryShared(object types.Object) {
	f.carry(&ast.Ident{NamePos: object.Pos()}, "shared-variable", object.Name()+" is shared: it lies in a cell, and each read and each write of it is a step of its own")
}

// declare binds the name that an expression is, unless it is the blank one.
func (f *function) declare(e ast.Expr, value Value) {
	name, ok := e.(*ast.Ident)
	if !ok {
		return
	}
	if name.Name == "_" {
		if value.Acts {
			f.emit(strings.TrimSuffix(strings.Repeat("_, ", len(value.Code)), ", ") + " = " + commas(value.Code))
		}
		return
	}
	f.bind(f.src.Info.Defs[name], value)
}

// spill keeps a value in variables, so that it is found once and at this moment.
func (f *function) spill(value Value, base string) Value {
	if len(value.Code) == 0 {
		return value
	}
	names := make([]string, len(value.Code))
	for at := range names {
		names[at] = f.temporary(base)
	}
	f.showAs(names, value.Shape)
	f.emit(commas(names) + " := " + commas(f.typedCodes(value)))
	return Value{Shape: value.Shape, Code: names, Binds: atom}
}

// held keeps one leaf in a variable.
func (f *function) held(base, t, code string) string {
	if code == "nil" {
		code = f.typedZero(t)
	}
	name := f.typedName(base, t)
	f.emit(name + " := " + code)
	return name
}

// typedCodes are the expressions of a value where a definition takes its types from them.
func (f *function) typedCodes(value Value) []string {
	found := append([]string(nil), value.Code...)
	for at, leaf := range value.Shape.leaves() {
		if at < len(found) && found[at] == "nil" {
			found[at] = f.typedZero(leaf.Type)
		}
	}
	return found
}

// isDefine says whether a name is new in a definition.
func (f *function) isDefine(e ast.Expr, tok token.Token) bool {
	name, ok := e.(*ast.Ident)
	return ok && tok == token.DEFINE && (f.src.Info.Defs[name] != nil || name.Name == "_")
}
