package translate

import (
	"go/ast"
	"go/token"
	"go/types"
)

// mostGrown is how many elements a slice that grows may have.
const mostGrown = 16

// Grow is a slice whose length is not known: its length, and room for its elements. Of one from whose beginning elements are taken, too,
// the elements lie around in the room from a first one on. Where an element of such a slice is assigned to, each lies in a cell, which
// copies of the slice share.
type Grow struct {
	Elem     Shape
	IsQueue  bool
	IsCelled bool
}

func (s Grow) leaves() []Leaf {
	found := []Leaf{{Suffix: "len", Type: "int"}}
	if s.IsQueue {
		found = append(found, Leaf{Suffix: "first", Type: "int"})
	}
	for _, leaf := range s.room().leaves() {
		if s.IsCelled && !leaf.Fixed {
			leaf.Type, leaf.Fixed = "chan "+leaf.Type, true
		}
		found = append(found, leaf)
	}
	return found
}

func isGrow(shape Shape) bool {
	_, ok := shape.(Grow)
	return ok
}

func (s Grow) room() List { return List{mostGrown, s.Elem} }

func (s Grow) key() string {
	word := "grow "
	if s.IsQueue {
		word = "queue "
	}
	if s.IsCelled {
		word = "shared " + word
	}
	return word + s.Elem.key()
}

// empty are the leaves before the elements, for a length.
func (s Grow) empty(length string) []string {
	if s.IsQueue {
		return []string{length, "0"}
	}
	return []string{length}
}

// appendsTo is the first argument of the call of append whose result is assigned to what it was taken from, or nil.
func (f *facts) appendsTo(it *ast.AssignStmt) *ast.CallExpr {
	if len(it.Lhs) != 1 || len(it.Rhs) != 1 || it.Tok != token.ASSIGN {
		return nil
	}
	call, ok := unparen(it.Rhs[0]).(*ast.CallExpr)
	if !ok || len(call.Args) == 0 {
		return nil
	}
	name, ok := call.Fun.(*ast.Ident)
	if !ok || types.ExprString(it.Lhs[0]) != types.ExprString(call.Args[0]) {
		return nil
	}
	if builtin, ok := f.src.Info.Uses[name].(*types.Builtin); !ok || builtin.Name() != "append" {
		return nil
	}
	return call
}

// findGrown finds the variables and the fields that grow.
func (f *facts) findGrown() {
	ast.Inspect(f.src.File, func(node ast.Node) bool {
		it, ok := node.(*ast.AssignStmt)
		if !ok {
			return true
		}
		cut := f.cuts(it)
		if f.appendsTo(it) == nil && cut == nil {
			return true
		}
		if cut != nil && cut.Low != nil {
			f.noteQueue(it.Lhs[0])
		}
		switch to := it.Lhs[0].(type) {
		case *ast.Ident:
			f.grown[f.object(to)] = true
		case *ast.SelectorExpr:
			if choice := f.src.Info.Selections[to]; choice != nil {
				f.grown[choice.Obj()] = true
			}
			if object := f.root(to); object != nil {
				f.indexed[object] = true
			}
		}
		return true
	})
}

func (f *facts) noteQueue(of ast.Expr) {
	switch to := of.(type) {
	case *ast.Ident:
		f.queued[f.object(to)] = true
	case *ast.SelectorExpr:
		if choice := f.src.Info.Selections[to]; choice != nil {
			f.queued[choice.Obj()] = true
		}
	}
}

// cuts is the part of a slice that is assigned to the slice itself, as in `x = x[1:]`, or nil.
func (f *facts) cuts(it *ast.AssignStmt) *ast.SliceExpr {
	if len(it.Lhs) != 1 || len(it.Rhs) != 1 || it.Tok != token.ASSIGN {
		return nil
	}
	part, ok := unparen(it.Rhs[0]).(*ast.SliceExpr)
	if !ok || part.Slice3 || types.ExprString(it.Lhs[0]) != types.ExprString(part.X) {
		return nil
	}
	if _, ok := under(f.typeOf(part.X)).(*types.Slice); !ok {
		return nil
	}
	return part
}

// cut is `x = x[low:high]`: another length, and another first element.
func (f *function) cut(it *ast.AssignStmt, part *ast.SliceExpr) {
	where := f.place(it.Lhs[0])
	if !isGrow(where.shape) {
		f.refuse(it, "slices", "this part of a slice is not carried", "let the slice be a variable or a field of its own")
	}
	length := f.spill(f.read(f.lengthOf(where)), "length").one()
	low, high := number(0), single(Num{}, length, false)
	if part.High != nil {
		high = f.spill(single(Num{}, f.helper("within")+"("+f.value(part.High).one()+", "+length+" + 1)", true), "high")
	}
	if part.Low != nil {
		low = f.spill(single(Num{}, f.helper("within")+"("+f.value(part.Low).one()+", "+high.one()+" + 1)", true), "low")
		first := f.read(f.firstOf(where)).one()
		f.store(f.firstOf(where), single(Num{}, "("+first+" + "+low.one()+") % "+itoa(mostGrown), true), it)
	}
	f.store(f.lengthOf(where), single(Num{}, high.one()+" - "+low.one(), false), it)
}

// grows is the shape of a variable or a field that is a slice and grows, or that is assigned to.
func (f *function) grows(object types.Object, node ast.Node) Shape {
	slice, ok := under(object.Type()).(*types.Slice)
	if !ok || !f.grown[object] && !f.assigned[object] {
		return nil
	}
	return f.growOf(slice, f.queued[object], node)
}

// growOf is the shape of a slice whose length is not known.
func (f *function) growOf(slice *types.Slice, isQueue bool, node ast.Node) Grow {
	f.change(node, "slices", "a slice that grows has room for 16 elements here; with more, the program stops")
	return Grow{f.shapeOf(slice.Elem(), node), isQueue, f.slices[slice.Elem().String()]}
}

// filled is a slice as one whose length is not known.
func (f *function) filled(value Value, shape Grow, node ast.Node) Value {
	if own, ok := value.Shape.(Grow); ok {
		return f.regrown(value, own, shape, node)
	}
	list, ok := value.Shape.(List)
	codes := value.Code
	if ref, isRef := value.Shape.(Ref); isRef {
		list, ok = ref.Of.(List)
		if value.Raw != nil && !shape.IsCelled {
			codes = value.Raw
		} else if !shape.IsCelled {
			codes = f.read(f.pointee(value)).Code
		}
	} else if ok && shape.IsCelled {
		codes = f.celled(value)
	}
	if !ok || list.Len > mostGrown || list.Len > 0 && list.Elem.key() != shape.Elem.key() {
		f.refuse(node, "slices", "this value of a slice that grows is not carried", "begin with an empty one")
	}
	rest := f.zero(List{mostGrown - list.Len, shape.Elem})
	if shape.IsCelled {
		rest.Code = f.celled(rest)
	}
	codes = append(append(shape.empty(itoa(list.Len)), codes...), rest.Code...)
	return Value{Shape: shape, Code: codes, Binds: atom, Acts: value.Acts || shape.IsCelled}
}

// regrown is a slice whose length is not known as another one of its kind.
func (f *function) regrown(value Value, own, shape Grow, node ast.Node) Value {
	if own.Elem.key() != shape.Elem.key() {
		f.refuse(node, "slices", "this value of a slice that grows is not carried", "begin with an empty one")
	}
	if value.Acts {
		value = f.spill(value, "slice")
	}
	where := place{shape: own, code: value.Code, cells: make([]bool, len(value.Code))}
	elements := f.roomOf(own, where)
	found := Value{Shape: shape, Code: shape.empty(value.Code[0]), Binds: atom, Acts: true}
	for at := 0; at < mostGrown; at++ {
		found.Code = append(found.Code, f.regrownElement(own, shape, elements, at)...)
	}
	return found
}

// regrownElement are the leaves of an element: its cells where both slices have them.
func (f *function) regrownElement(own, shape Grow, elements place, at int) []string {
	width := len(own.Elem.leaves())
	one := place{shape: own.Elem, code: elements.code[at*width : (at+1)*width], cells: elements.cells[at*width : (at+1)*width]}
	if elements.first != "" {
		one = f.lookedUp(own.room(), elements, number(at), width)
	}
	if own.IsCelled && shape.IsCelled {
		return one.code
	}
	value := f.read(one)
	if shape.IsCelled {
		return f.celled(value)
	}
	return value.Code
}

// plainGrown is a slice whose length is not known as its elements themselves, in their order.
func (f *function) plainGrown(value Value, node ast.Node) Value {
	shape := value.Shape.(Grow)
	if !shape.IsQueue && !shape.IsCelled {
		return value
	}
	return f.regrown(value, shape, Grow{Elem: shape.Elem}, node)
}

// madeLong is a new slice whose length is found while the program runs.
func (f *function) madeLong(slice *types.Slice, length Value, node ast.Node) Value {
	found := f.zero(f.growOf(slice, false, node))
	found.Code[0] = f.helper("room") + "(" + length.one() + ")"
	found.Acts = true
	return found
}

// grow is `x = append(x, ..)`: each element is put behind the last one, and then the length is written.
func (f *function) grow(it *ast.AssignStmt, call *ast.CallExpr) {
	where := f.place(it.Lhs[0])
	shape, ok := where.shape.(Grow)
	if ok && where.entry != nil {
		f.growEntry(it, where, call)
		return
	}
	if !ok {
		f.refuse(it, "slices", "this append is not carried", "append the elements one by one to a variable of its own")
	}
	if call.Ellipsis != token.NoPos {
		f.growByAll(it, shape, where, f.value(call.Args[1]))
		return
	}
	for _, value := range f.all(call.Args[1:]) {
		f.growByOne(it, shape, where, f.fit(value, shape.Elem, it))
	}
}

func (f *function) growByOne(node ast.Node, shape Grow, where place, value Value) {
	if value.Acts {
		value = f.spill(value, "value")
	}
	length := f.temporary("length")
	f.emit(length + " := " + f.read(f.lengthOf(where)).one())
	f.store(f.lookedUp(shape.room(), f.roomOf(shape, where), single(Num{}, length, false), len(shape.Elem.leaves())), value, node)
	f.store(f.lengthOf(where), single(Num{}, length+" + 1", false), node)
}

// growByAll puts all elements of a slice behind the last one of another.
func (f *function) growByAll(node ast.Node, shape Grow, where place, value Value) {
	if ref, ok := value.Shape.(Ref); ok {
		value = f.read(f.pointee(Value{Shape: ref, Code: value.Code, Binds: atom}))
	}
	if list, ok := value.Shape.(List); ok && list.Len <= mostGrown {
		if value.Acts {
			value = f.spill(value, "value")
		}
		for at, width := 0, len(list.Elem.leaves()); at < list.Len; at++ {
			f.growByOne(node, shape, where, f.fit(value.part(at*width, list.Elem), shape.Elem, node))
		}
		return
	}
	own, ok := value.Shape.(Grow)
	if !ok || own.Elem.key() != shape.Elem.key() {
		f.refuse(node, "slices", "this append is not carried", "append the elements one by one to a variable of its own")
	}
	if value.Acts {
		value = f.spill(value, "value")
	}
	from := place{shape: own, code: value.Code, cells: make([]bool, len(value.Code))}
	elements, at := f.roomOf(own, from), f.temporary("at")
	f.open("for " + at + " := 0; " + at + " < " + value.Code[0] + "; " + at + "++ {")
	f.growByOne(node, shape, where, f.read(f.lookedUp(own.room(), elements, single(Num{}, at, false), len(own.Elem.leaves()))))
	f.close()
}

// appended is an append whose result is another slice: one of its own, if what is appended to is empty.
func (f *function) appended(it *ast.CallExpr) Value {
	slice, ok := under(f.typeOf(it)).(*types.Slice)
	first := f.value(it.Args[0])
	list, isList := first.Shape.(List)
	if ref, isRef := first.Shape.(Ref); isRef {
		list, isList = ref.Of.(List)
	}
	_, isNil := first.Shape.(Nothing)
	if !ok || !isNil && (!isList || list.Len > 0) {
		f.refuse(it, "slices", "append is carried only as x = append(x, ..), or to an empty slice", "append to a variable, or send the elements over a channel with room for them")
	}
	shape := f.growOf(slice, false, it)
	held := f.spill(f.zero(shape), "slice")
	where := place{shape: shape, code: held.Code, cells: make([]bool, len(held.Code))}
	if it.Ellipsis != token.NoPos {
		f.growByAll(it, shape, where, f.value(it.Args[1]))
		return held
	}
	for _, value := range f.all(it.Args[1:]) {
		f.growByOne(it, shape, where, f.fit(value, shape.Elem, it))
	}
	return held
}

func (f *function) lengthOf(where place) place {
	return place{shape: Num{}, code: where.code[:1], cells: where.cells[:1]}
}

func (f *function) firstOf(where place) place {
	return place{shape: Num{}, code: where.code[1:2], cells: where.cells[1:2]}
}

// roomOf is where the elements of a slice that grows lie.
func (f *function) roomOf(shape Grow, where place) place {
	before := len(shape.empty("0"))
	room := place{shape: shape.room(), code: where.code[before:], cells: where.cells[before:]}
	if shape.IsCelled {
		room.cells = Ref{shape.room()}.cells()
	}
	if shape.IsQueue {
		room.first = f.spill(f.read(f.firstOf(where)), "first").one()
	}
	return room
}

// grownElement is an element of a slice that grows, if the index lies within its length.
func (f *function) grownElement(shape Grow, where place, index Value) place {
	length := f.read(f.lengthOf(where)).one()
	checked := single(Num{}, f.helper("within")+"("+index.one()+", "+length+")", true)
	return f.lookedUp(shape.room(), f.roomOf(shape, where), checked, len(shape.Elem.leaves()))
}

// rangeGrown is a loop over the elements that a slice has when it begins.
func (f *function) rangeGrown(it *ast.RangeStmt, label string, shape Grow, where place) {
	last := f.temporary("length")
	f.emit(last + " := " + f.read(f.lengthOf(where)).one())
	f.rangeOver(it, label, shape.room(), f.roomOf(shape, where), last)
}
