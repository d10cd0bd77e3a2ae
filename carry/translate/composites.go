package translate

import (
	"go/ast"
	"go/types"
)

// parts are what a value is printed as: a number or a text as it is, a struct or a slice as its parts with what Go writes around them.
func (f *function) parts(node ast.Node, value Value, t types.Type, verb byte, depth int) []item {
	if depth > 0 && f.speaker(t) != nil {
		f.refuse(node, "printing", "a part that has a method String or Error is not printed", "print the fields one after another")
	}
	if fullName(t) == "time.Time" {
		f.refuse(node, "time", "a moment of time is not printed", "there is no clock: leave it out")
	}
	switch it := value.Shape.(type) {
	case Num, Truth:
		return []item{{value: &value}}
	case Unit:
		return []item{{text: "{}"}}
	case Record:
		return f.recordParts(node, value, it, t, verb, depth)
	case List:
		return f.listParts(node, value, it, t, verb, depth)
	case Grow:
		if it.Elem.key() == "int" || it.Elem.key() == "bool" {
			f.change(node, "printing", "println sets its values apart by blanks")
			value = f.plainGrown(value, node)
			return []item{{value: &value}}
		}
	case Ref:
		lead := f.parts(node, f.read(f.pointee(value)), pointedType(t), verb, depth+1)
		if isPointer(t) && depth == 0 {
			return append([]item{{text: "&"}}, lead...)
		} else if !isPointer(t) {
			return lead
		}
	}
	f.refuse(node, "printing", "only numbers, truth values, texts, and structs and slices of them are printed", "print the fields one after another")
	return nil
}

// pointedType is the type of what a pointer leads to; of a slice it is its own.
func pointedType(t types.Type) types.Type {
	if pointer, ok := under(t).(*types.Pointer); ok {
		return pointer.Elem()
	}
	return t
}

func (f *function) recordParts(node ast.Node, value Value, record Record, t types.Type, verb byte, depth int) []item {
	f.change(node, "printing", "println sets its values apart by blanks")
	found := []item{{text: "{"}}
	kind, _ := under(t).(*types.Struct)
	from := 0
	for at, field := range record.Fields {
		if verb == '+' {
			found = append(found, item{text: field.Name + ":"})
		}
		part := value.part(from, field.Shape)
		from += len(part.Code)
		found = append(found, f.parts(node, part, kind.Field(at).Type(), verb, depth+1)...)
	}
	return append(found, item{text: "}"})
}

func (f *function) listParts(node ast.Node, value Value, list List, t types.Type, verb byte, depth int) []item {
	f.change(node, "printing", "println sets its values apart by blanks")
	var elem types.Type
	switch kind := under(t).(type) {
	case *types.Slice:
		elem = kind.Elem()
	case *types.Array:
		elem = kind.Elem()
	}
	found := []item{{text: "["}}
	for at, width := 0, len(list.Elem.leaves()); at < list.Len; at++ {
		found = append(found, f.parts(node, value.part(at*width, list.Elem), elem, verb, depth+1)...)
	}
	return append(found, item{text: "]"})
}

// speaker is the method by which fmt writes values of a type: Error or String. It is nil where there is none.
func (f *function) speaker(t types.Type) *body {
	if concrete := f.onlyType(t); concrete != nil {
		t = concrete
	}
	for _, name := range []string{"Error", "String"} {
		if t == nil {
			break
		}
		object, _, _ := types.LookupFieldOrMethod(t, false, f.src.Pkg, name)
		method, ok := object.(*types.Func)
		if !ok {
			continue
		}
		sign := method.Type().(*types.Signature)
		if sign.Params().Len() == 0 && sign.Results().Len() == 1 && sign.Results().At(0).Type() == types.Typ[types.String] {
			return f.declared[method]
		}
	}
	return nil
}

// speakerOf is the speaker of an expression that is printed by a verb, if the verb asks for one.
func (f *function) speakerOf(e ast.Expr, verb byte) *body {
	switch verb {
	case 'v', 's', 'q', '+', 'w':
		return f.speaker(f.typeOf(e))
	}
	return nil
}

// speaking is a call of a speaker; without one it is the expression itself.
func (f *function) speaking(e ast.Expr, speaker *body) ast.Expr {
	if speaker == nil {
		return e
	}
	call := &ast.CallExpr{Fun: e, Lparen: e.Pos(), Rparen: e.End()}
	f.spoken[call] = speaker
	return call
}

// speak is what a speaker says of an expression.
func (f *function) speak(it *ast.CallExpr, speaker *body) []Value {
	f.carry(it, "printing", "the method "+speaker.decl.Name.Name+" says what is printed")
	receiver, t := f.value(it.Fun), speaker.sign.Recv().Type()
	if !isPointer(t) {
		receiver = f.read(f.pointee(receiver))
	}
	receiver = f.fit(receiver, f.shapeOf(t, it), it)
	return f.invoke(f.prepare(it, Value{Shape: Func{Body: speaker}}, &receiver, nil))
}
