package translate

import (
	"go/ast"
	"go/token"
	"go/types"
	"strings"
)

// A layout has the functions that a value of a type of functions may be, by the order in which they were found.
type layout struct{ of []Func }

// AnyFunc is a function value that is not known where it is called: the number of its function, or 0 for nil, and room for what each one
// holds.
type AnyFunc struct {
	layout *layout
	sign   *types.Signature
}

func (s AnyFunc) leaves() []Leaf {
	found := []Leaf{{Suffix: "func", Type: "int"}}
	for at, one := range s.layout.of {
		for _, leaf := range one.leaves() {
			leaf.Suffix, leaf.Fixed = join(itoa(at+1), leaf.Suffix), false
			found = append(found, leaf)
		}
	}
	return found
}

func (s AnyFunc) key() string { return "any " + signKey(s.sign) }

// part is where the leaves of one of the functions begin.
func (s AnyFunc) part(at int) int {
	from := 1
	for _, one := range s.layout.of[:at] {
		from += len(one.leaves())
	}
	return from
}

// signKey tells the types of functions apart.
func signKey(sign *types.Signature) string {
	var found strings.Builder
	for _, list := range []*types.Tuple{sign.Params(), sign.Results()} {
		found.WriteByte('(')
		for at := 0; at < list.Len(); at++ {
			found.WriteString(types.TypeString(list.At(at).Type(), nil) + ",")
		}
		found.WriteByte(')')
	}
	if sign.Variadic() {
		found.WriteString("..")
	}
	return found.String()
}

// anyFunc is the shape of function values of a type.
func (f *function) anyFunc(sign *types.Signature, node ast.Node) Shape {
	f.change(node, "functions", "a function value that is not known here is the number of its function, with room for what each one holds")
	key := signKey(sign)
	if f.layouts[key] == nil {
		f.layouts[key] = &layout{}
	}
	return AnyFunc{f.layouts[key], sign}
}

// inAnyFunc is a function that is known as a value of its type.
func (f *function) inAnyFunc(value Value, shape AnyFunc, node ast.Node) Value {
	known, ok := value.Shape.(Func)
	if !ok {
		f.refuse(node, "functions", "this function value is not carried", "write a function around it")
	}
	chosen := -1
	for at, one := range shape.layout.of {
		if one.key() == known.key() {
			chosen = at
		}
	}
	if chosen < 0 {
		for _, held := range append([]Shape{known.Receiver}, known.Held...) {
			if holds(held, shape.layout) {
				f.refuse(node, "functions", "a function value that holds another one of its type is not carried", "call the function by its name")
			}
		}
		shape.layout.of = append(shape.layout.of, known)
		f.isRelaid = true
		chosen = len(shape.layout.of) - 1
	}
	found := Value{Shape: shape, Binds: atom, Acts: value.Acts}
	for _, leaf := range shape.leaves() {
		found.Code = append(found.Code, f.typedZero(leaf.Type))
	}
	found.Code[0] = itoa(chosen + 1)
	copy(found.Code[shape.part(chosen):], value.Code)
	return found
}

// holds says whether values of a type of functions lie in a shape, or go over its channels.
func holds(shape Shape, wanted *layout) bool {
	if any, ok := shape.(AnyFunc); ok && any.layout == wanted {
		return true
	}
	for _, inner := range within(shape) {
		if holds(inner, wanted) {
			return true
		}
	}
	return false
}

// within are the shapes of which a shape is made.
func within(shape Shape) []Shape {
	var found []Shape
	switch it := shape.(type) {
	case AnyFunc:
		for _, one := range it.layout.of {
			found = append(found, one)
		}
	case Func:
		found = append(append(found, it.Receiver), it.Held...)
	case Record:
		for _, field := range it.Fields {
			found = append(found, field.Shape)
		}
	case Union:
		found = it.Of
	case Ref:
		found = []Shape{it.Of}
	case Chan:
		found = []Shape{it.Elem}
	case List:
		found = []Shape{it.Elem}
	case Grow:
		found = []Shape{it.Elem}
	case Map:
		found = []Shape{it.Elem}
	}
	return found
}

// choicesOfAny are the calls of a function value, one for each function that it may be.
func (f *function) choicesOfAny(it *ast.CallExpr, fun Value) []choiceOf {
	shape := fun.Shape.(AnyFunc)
	if len(shape.layout.of) == 0 && shape.sign.Results().Len() > 0 {
		f.refuse(it, "functions", "no function is found that may be called here", "call the function by its name")
	}
	if fun.Acts {
		fun = f.spill(fun, "called")
	}
	arguments := f.arguments(it.Args)
	for at := range arguments {
		if arguments[at].Acts {
			arguments[at] = f.spill(arguments[at], "argument")
		}
	}
	var found []choiceOf
	for at, one := range shape.layout.of {
		values := f.fitAll(it, one.Body.sign, append([]Value(nil), arguments...), it.Ellipsis != token.NoPos)
		to := f.prepare(it, fun.part(shape.part(at), one), nil, values)
		found = append(found, choiceOf{fun.Code[0] + " == " + itoa(at+1), to})
	}
	return found
}
