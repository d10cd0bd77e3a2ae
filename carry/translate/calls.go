package translate

import (
	"go/ast"
	"go/token"
	"go/types"
)

// called is a call as a value: a conversion, a built-in function, one of a known package, or one of the program.
func (f *function) called(it *ast.CallExpr) Value {
	values := f.call(it)
	if len(values) != 1 {
		f.refuse(it, "results", "this call has no value", "")
	}
	return values[0]
}

// call translates a call, and gives its results.
func (f *function) call(it *ast.CallExpr) []Value {
	apart := f.isApart
	f.isApart = false
	defer func() { f.isApart = apart }()
	if speaker := f.spoken[it]; speaker != nil {
		return f.speak(it, speaker)
	}
	fun := unparen(it.Fun)
	if known := f.src.Info.Types[fun]; known.IsType() {
		return []Value{f.conversion(it, known.Type)}
	}
	if name, ok := fun.(*ast.Ident); ok {
		if builtin, ok := f.object(name).(*types.Builtin); ok {
			return f.builtin(it, builtin.Name())
		}
	}
	if selector, ok := fun.(*ast.SelectorExpr); ok {
		if choice := f.src.Info.Selections[selector]; choice != nil && choice.Kind() == types.MethodVal {
			return f.method(it, selector, choice)
		}
		if object, ok := f.src.Info.Uses[selector.Sel].(*types.Func); ok && object.Pkg() != f.src.Pkg {
			return f.packageCall(it, object)
		}
	}
	called := f.functionOrAny(fun)
	if _, ok := called.Shape.(AnyFunc); ok {
		return f.chosen(it, f.choicesOfAny(it, called))
	}
	return f.apply(it, called, it.Args, it.Ellipsis != token.NoPos)
}

func unparen(e ast.Expr) ast.Expr {
	for {
		paren, ok := e.(*ast.ParenExpr)
		if !ok {
			return e
		}
		e = paren.X
	}
}

// function is a function value whose function is known.
func (f *function) function(fun ast.Expr) Value {
	value := f.functionOrAny(fun)
	if _, ok := value.Shape.(AnyFunc); ok {
		f.refuse(fun, "functions", "a function value that is not known here is not carried", "call the function by its name")
	}
	return value
}

// functionOrAny is a function value.
func (f *function) functionOrAny(fun ast.Expr) Value {
	value := f.value(fun)
	if tool, ok := isTool(value.Shape); ok && tool == Cancel {
		return value
	}
	_, isAny := value.Shape.(AnyFunc)
	if _, ok := value.Shape.(Func); !ok && !isAny {
		f.refuse(fun, "functions", "a function value that is not known here is not carried", "call the function by its name")
	}
	return value
}

func (f *function) conversion(it *ast.CallExpr, t types.Type) Value {
	value := f.value(it.Args[0])
	if basic, ok := under(t).(*types.Basic); ok && basic.Info()&types.IsString != 0 && value.Shape.key() != "string" {
		f.refuse(it, "texts", "a text that is made while the program runs is not carried", "print the value itself")
	}
	if _, ok := under(t).(*types.Slice); ok && value.Shape.key() == "string" {
		f.refuse(it, "texts", "the bytes of a text are not carried", "hand the text on as a whole")
	}
	switch value.Shape.(type) {
	case Num, Truth:
		f.shapeOf(t, it)
	}
	return value
}

// A callee is an instance that is called, and its arguments.
type callee struct {
	instance *instance
	code     []string
}

// prepareApart does so for a call in another goroutine, whose panics run nothing of what is deferred here.
func (f *function) prepareApart(it *ast.CallExpr, fun Value) callee {
	f.isApart = true
	defer func() { f.isApart = false }()
	return f.prepare(it, fun, nil, nil)
}

// prepare finds the instance of a function for arguments, and what it is given.
func (f *function) prepare(it *ast.CallExpr, fun Value, receiver *Value, arguments []Value) callee {
	shape := fun.Shape.(Func)
	var shapes []Shape
	var code []string
	if shape.Receiver != nil {
		width := len(shape.Receiver.leaves())
		receiver = &Value{Shape: shape.Receiver, Code: fun.Code[:width]}
		fun.Code = fun.Code[width:]
	}
	if receiver != nil {
		shapes, code = append(shapes, receiver.Shape), append(code, receiver.Code...)
	}
	for _, value := range arguments {
		shapes, code = append(shapes, value.Shape), append(code, value.Code...)
	}
	code = append(code, fun.Code...)
	unwind := f.unwindingFor(shape.Body)
	found := f.program.instance(shape.Body, shapes, shape.Held, unwind)
	for _, object := range found.globals {
		if f.globals[object] != nil {
			code = append(code, f.namesFor(object)...)
		}
	}
	return callee{found, append(code, unwind.code()...)}
}

// namesFor are the names under which this function has a variable of the package.
func (f *function) namesFor(object types.Object) []string {
	if known := f.bound[object]; known != nil {
		return known.names
	}
	return f.globals[object].names
}

// apply calls a function of the program.
func (f *function) apply(it *ast.CallExpr, fun Value, args []ast.Expr, spread bool) []Value {
	if tool, ok := isTool(fun.Shape); ok && tool == Cancel {
		f.emit(f.helper("cancel") + "(" + commas(fun.Code, []string{itoa(f.errors.number("context canceled"))}) + ")")
		return nil
	}
	sign := fun.Shape.(Func).Body.sign
	values := f.fitAll(it, sign, f.arguments(args), spread)
	return f.invoke(f.prepare(it, fun, nil, values))
}

// arguments are the values of arguments, or all results of the one call that stands there.
func (f *function) arguments(args []ast.Expr) []Value {
	if len(args) == 1 {
		if call, ok := unparen(args[0]).(*ast.CallExpr); ok {
			if _, ok := f.typeOf(call).(*types.Tuple); ok {
				return f.call(call)
			}
		}
	}
	return f.all(args)
}

// invoke writes a call, and gives its results. All but the first leaf come over channels.
func (f *function) invoke(to callee) []Value {
	var leaves []Leaf
	for _, shape := range to.instance.results {
		leaves = append(leaves, shape.leaves()...)
	}
	if len(leaves) <= 1 {
		code := to.instance.name + "(" + commas(to.code) + ")"
		if len(leaves) == 0 {
			f.emit(code)
		}
		return split(to.instance.results, []string{code}[:len(leaves)])
	}
	outs := f.channelsFor(leaves)
	first := f.temporary("result")
	f.emit(first + " := " + to.instance.name + "(" + commas(to.code, outs) + ")")
	codes := []string{first}
	for at, out := range outs {
		name := f.temporary("result_" + itoa(at+2))
		f.emit(name + " := <-" + out)
		codes = append(codes, name)
	}
	found := split(to.instance.results, codes)
	for at := range found {
		found[at].Acts = false
	}
	return found
}

// channelsFor makes the channels over which all results but the first come.
func (f *function) channelsFor(leaves []Leaf) []string {
	var names []string
	for at, leaf := range leaves[1:] {
		name := f.temporary("out_" + itoa(at+2))
		f.emit(name + " := make(chan " + leaf.Type + ", 1)")
		names = append(names, name)
	}
	return names
}

func split(shapes []Shape, codes []string) []Value {
	var found []Value
	for _, shape := range shapes {
		width := len(shape.leaves())
		found = append(found, Value{Shape: shape, Code: codes[:width:width], Binds: atom, Acts: true})
		codes = codes[width:]
	}
	return found
}

// method calls a method: of a tool, or of a type of the program.
func (f *function) method(it *ast.CallExpr, selector *ast.SelectorExpr, choice *types.Selection) []Value {
	object := choice.Obj().(*types.Func)
	if concrete := f.onlyType(choice.Recv()); concrete != nil {
		return f.ofOnlyType(it, selector, concrete, object.Name())
	}
	if len(f.typesBehind(choice.Recv())) > 1 {
		return f.ofUnion(it, selector, object.Name())
	}
	if known := f.declared[object]; known != nil {
		receiver := f.receiver(selector, known.sign.Recv().Type(), choice)
		var arguments []Value
		before := len(f.instance.pieces)
		arguments = f.arguments(it.Args)
		if len(f.instance.pieces) > before && receiver.Acts {
			f.refuse(it, "methods", "a receiver that is found before such arguments is not carried", "put it into a variable first")
		}
		values := f.fitAll(it, known.sign, arguments, it.Ellipsis != token.NoPos)
		return f.invoke(f.prepare(it, Value{Shape: Func{Body: known}}, &receiver, values))
	}
	if isError(f.typeOf(selector.X)) && object.Name() == "Error" {
		value := f.value(selector.X)
		return []Value{{Shape: Num{Error}, Code: value.Code, Binds: value.Binds, Acts: value.Acts}}
	}
	return f.toolMethod(it, selector, choice)
}

// receiver is the receiver of a method: a copy of a value, or its address.
func (f *function) receiver(selector *ast.SelectorExpr, t types.Type, choice *types.Selection) Value {
	where := f.start(selector.X)
	at := f.typeOf(selector.X)
	for _, index := range choice.Index()[:len(choice.Index())-1] {
		where = f.step(where, at, index, selector)
		at = fieldType(at, index)
	}
	if _, ok := isTool(where.shape); ok {
		return f.read(where)
	}
	if !isPointer(t) {
		return f.copied(f.read(where), selector)
	}
	if ref, ok := where.shape.(Ref); ok {
		return f.read(place{shape: ref, code: where.code, cells: where.cells})
	}
	return Value{Shape: Ref{where.shape}, Code: where.code, Binds: atom}
}

// builtin is a call of a function that Go has everywhere.
func (f *function) builtin(it *ast.CallExpr, name string) []Value {
	switch name {
	case "len", "cap":
		return []Value{f.length(it, name)}
	case "make":
		return []Value{f.made(it)}
	case "new":
		shape := f.shapeOf(f.typeOf(it.Args[0]), it)
		value := f.zero(shape)
		if _, ok := isTool(shape); ok {
			return []Value{value}
		}
		return []Value{{Shape: Ref{shape}, Code: f.celled(value), Binds: atom, Acts: true}}
	case "close":
		f.emit("close(" + f.value(it.Args[0]).one() + ")")
		return nil
	case "println", "print":
		f.print(it, it.Args)
		return nil
	case "panic":
		f.panics(it)
		return nil
	case "append":
		return []Value{f.appended(it)}
	case "delete":
		f.deletes(it)
		return nil
	case "copy":
		return []Value{f.copies(it)}
	case "recover":
		f.refuse(it, "recover", "recover is not carried: a panic stops the program, and can be taken back", "return an error in place of the panic")
	}
	f.refuse(it, "built-in", name+" is not carried", "")
	return nil
}

func (f *function) length(it *ast.CallExpr, name string) Value {
	if f.hasPlace(it.Args[0]) {
		if f.isMap(it.Args[0]) {
			value := f.value(it.Args[0])
			return single(Num{}, f.mapHelper("map_len", value.Shape.(Map))+"("+commas(value.Code)+")", true)
		}
		if where := f.settled(f.place(it.Args[0])); name == "len" && isGrow(where.shape) {
			return f.read(f.lengthOf(where))
		}
	}
	value := f.value(it.Args[0])
	shape := value.Shape
	if ref, ok := shape.(Ref); ok {
		shape = ref.Of
	}
	switch kind := shape.(type) {
	case Chan:
		return single(Num{}, name+"("+value.one()+")", true)
	case List:
		return number(kind.Len)
	case Grow:
		if name == "len" {
			return value.part(0, Num{})
		}
	}
	f.refuse(it, "texts", "the length of this value is not carried", "write it as a constant")
	return Value{}
}

// made is a channel, or a slice whose length is known.
func (f *function) made(it *ast.CallExpr) Value {
	t := f.typeOf(it.Args[0])
	switch kind := under(t).(type) {
	case *types.Chan:
		shape := f.shapeOf(t, it).(Chan)
		room := ""
		if len(it.Args) > 1 {
			room = ", " + f.value(it.Args[1]).one()
		}
		return single(shape, "make(chan "+carried(shape.Elem)+room+")", true)
	case *types.Map:
		if len(it.Args) > 1 {
			f.value(it.Args[1])
		}
		return f.newMap(f.shapeOf(t, it).(Map))
	case *types.Slice:
		length := f.staticInt(it.Args[1])
		if length == nil {
			return f.madeLong(kind, f.value(it.Args[1]), it)
		}
		if *length > mostElements {
			f.refuse(it, "slices", "a slice of more than 64 elements is not carried", "use fewer")
		}
		value := f.zero(List{*length, f.shapeOf(kind.Elem(), it)})
		if f.slices[kind.Elem().String()] {
			return Value{Shape: Ref{value.Shape}, Code: f.celled(value), Binds: atom, Acts: true, Raw: value.Code}
		}
		return value
	}
	f.shapeOf(t, it)
	return Value{}
}

// staticInt is the number that an expression always has here, if that is known.
func (f *function) staticInt(e ast.Expr) *int {
	if known := f.src.Info.Types[e]; known.Value != nil {
		return f.value(e).Number
	}
	switch it := unparen(e).(type) {
	case *ast.BinaryExpr:
		return computed(it.Op, f.staticInt(it.X), f.staticInt(it.Y))
	case *ast.CallExpr:
		if fun, ok := it.Fun.(*ast.Ident); ok && fun.Name == "len" && len(it.Args) == 1 && f.hasPlace(it.Args[0]) {
			return f.value(e).Number
		}
	case *ast.Ident:
		object := f.object(it)
		if object != nil && !f.assigned[object] && !f.addressed[object] && f.initial[object] != nil {
			return f.staticInt(f.initial[object])
		}
	}
	return nil
}
