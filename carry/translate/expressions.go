package translate

import (
	"go/ast"
	"go/constant"
	"go/token"
	"go/types"
	"strings"
)

// value translates an expression.
func (f *function) value(e ast.Expr) Value {
	known := f.src.Info.Types[e]
	if known.Value != nil {
		return f.constant(known, e)
	}
	if known.IsNil() {
		return Value{Shape: Nothing{}, Binds: atom}
	}
	if found, ok := f.early[e]; ok {
		return found
	}
	switch it := e.(type) {
	case *ast.Ident:
		return f.identifier(it)
	case *ast.ParenExpr:
		return f.value(it.X)
	case *ast.UnaryExpr:
		return f.unary(it)
	case *ast.BinaryExpr:
		return f.binary(it)
	case *ast.CallExpr:
		return f.called(it)
	case *ast.SelectorExpr, *ast.IndexExpr, *ast.StarExpr:
		if found, ok := f.methodValue(e); ok {
			return found
		}
		return f.copied(f.read(f.place(e)), e)
	case *ast.CompositeLit:
		return f.literal(it)
	case *ast.FuncLit:
		return f.closure(it)
	case *ast.SliceExpr:
		return f.slice(it)
	case *ast.TypeAssertExpr:
		return f.assertion(it)
	}
	f.refuse(e, "expressions", "this expression is not carried", "")
	return Value{}
}

// constant is a constant as a literal of the language.
func (f *function) constant(known types.TypeAndValue, node ast.Expr) Value {
	if isSignal(known.Type) {
		return f.signal(known, node)
	}
	switch known.Value.Kind() {
	case constant.Bool:
		return single(Truth{}, known.Value.String(), false)
	case constant.String:
		if _, ok := literal(constant.StringVal(known.Value)); !ok {
			f.refuse(node, "texts", "a text with control characters that is handed on is not carried", "leave them out")
		}
		return Value{Shape: Num{String}, Code: []string{itoa(f.texts.number(constant.StringVal(known.Value)))}, Binds: atom}
	}
	whole := constant.ToInt(known.Value)
	if n, ok := constant.Int64Val(whole); ok && whole.Kind() == constant.Int {
		found := number(int(n))
		if n < 0 {
			found.Binds = unary
		}
		if basic, ok := under(known.Type).(*types.Basic); ok && basic.Info()&types.IsInteger != 0 {
			f.noteWidth(basic, node)
		}
		return found
	}
	f.refuse(node, "numbers", "the number "+known.Value.String()+" is not carried", "use whole numbers that fit int")
	return Value{}
}

func (f *function) identifier(it *ast.Ident) Value {
	switch object := f.object(it).(type) {
	case *types.Var:
		return f.copied(f.read(f.variable(object, it)), it)
	case *types.Func:
		if known := f.declared[object]; known != nil {
			return Value{Shape: Func{Body: known}, Binds: atom}
		}
	}
	f.refuse(it, "expressions", it.Name+" is not carried", "")
	return Value{}
}

// fit makes a value one of a shape: `nil` becomes what stands for it there.
func (f *function) fit(value Value, shape Shape, node ast.Node) Value {
	if _, ok := value.Shape.(Nothing); ok {
		return f.nothing(shape, node)
	}
	if value.Shape.key() == shape.key() {
		return value
	}
	if any, ok := shape.(AnyFunc); ok {
		return f.inAnyFunc(value, any, node)
	}
	if union, ok := shape.(Union); ok {
		return f.inUnion(value, union, node)
	}
	if grow, ok := shape.(Grow); ok {
		return f.filled(value, grow, node)
	}
	if text, ok := shape.(Num); ok {
		if found, ok := f.fitNumber(value, text.Text, node); ok {
			return found
		}
	}
	if own, ok := isTool(value.Shape); ok {
		if wanted, ok := isTool(shape); ok && wanted == own {
			return Value{Shape: shape, Code: value.Code, Binds: atom, Acts: value.Acts}
		}
	}
	if f.isSurvey && strings.Contains(shape.key(), "[") {
		panic(obstacle{}) // lengths are not known there
	}
	f.refuse(node, "types", "a value of another kind than before is not carried: "+value.Shape.key()+" for "+shape.key(), "give each variable one kind of value")
	return Value{}
}

// fitNumber makes a value a number, a text or an error, if it can be one.
func (f *function) fitNumber(value Value, wanted Text, node ast.Node) (Value, bool) {
	own, ok := value.Shape.(Num)
	if ok && (wanted == own.Text || own.Text == Plain) {
		return value, true
	}
	if ok && wanted == String && own.Text == Error {
		return f.errorText(value), true
	}
	if speaker := f.errorMethod(value.Shape); wanted == Error && speaker != nil {
		return f.spokenError(value, speaker, node), true
	}
	return Value{}, false
}

func (f *function) nothing(shape Shape, node ast.Node) Value {
	switch it := shape.(type) {
	case Num:
		if it.Text == Error {
			return Value{Shape: shape, Code: []string{"0"}, Binds: atom}
		}
	case Chan, Handle, Map:
		return f.nils(shape)
	case Ref:
		f.mayBeNil(it, node)
		return f.nils(shape)
	case List:
		if it.Len == 0 {
			return Value{Shape: shape, Binds: atom}
		}
	case Grow:
		return f.zero(shape)
	case Union, AnyFunc:
		return f.zero(it)
	}
	f.refuse(node, "pointers", "nil is not carried here", "")
	return Value{}
}

func (f *function) nils(shape Shape) Value {
	found := Value{Shape: shape, Binds: atom}
	for range shape.leaves() {
		found.Code = append(found.Code, "nil")
	}
	return found
}

// zero is the zero value of a shape.
func (f *function) zero(shape Shape) Value {
	if tool, ok := shape.(Tool); ok {
		return f.newTool(tool)
	}
	found := Value{Shape: shape, Binds: atom}
	switch it := shape.(type) {
	case Record:
		for _, field := range it.Fields {
			part := f.zero(field.Shape)
			found.Code, found.Acts = append(found.Code, part.Code...), found.Acts || part.Acts
		}
	case List:
		for n := 0; n < it.Len; n++ {
			part := f.zero(it.Elem)
			found.Code, found.Acts = append(found.Code, part.Code...), found.Acts || part.Acts
		}
	case Grow:
		part := f.zero(it.room())
		if it.IsCelled {
			part.Code, part.Acts = f.celled(part), true
		}
		found.Code, found.Acts = append(it.empty("0"), part.Code...), part.Acts
	default:
		if _, ok := shape.(Ref); ok {
			f.needsCheck = true
		}
		for _, leaf := range shape.leaves() {
			found.Code = append(found.Code, zeroOf(leaf.Type))
		}
	}
	return found
}

// all translates expressions in the order of Go. An obstacle in one does not keep those in the others from being noted. What acts
// before another one needs statements of its own is kept in variables.
func (f *function) all(list []ast.Expr) []Value {
	if f.isApart {
		return f.inOrderOfText(list) // as Go keeps the arguments of a `go`
	}
	defer f.callsFirst(list)()
	return f.inOrderOfText(list)
}

// inOrderOfText translates expressions, each of which is found before the next one.
func (f *function) inOrderOfText(list []ast.Expr) []Value {
	var found []Value
	failed := false
	for _, e := range list {
		before := len(f.instance.pieces)
		var value Value
		if !f.attempt(e, func() { value = f.value(e) }) {
			failed = true
			continue
		}
		if after := f.instance.pieces[before:]; len(after) > 0 {
			late := append([]piece(nil), after...)
			f.instance.pieces = f.instance.pieces[:before]
			for at := range found {
				if found[at].Acts {
					found[at] = f.spill(found[at], "value")
				}
			}
			f.instance.pieces = append(f.instance.pieces, late...)
		}
		found = append(found, value)
	}
	if failed {
		panic(obstacle{})
	}
	return found
}

func (f *function) unary(it *ast.UnaryExpr) Value {
	switch it.Op {
	case token.ARROW:
		value, _ := f.receive(it.X, false)
		return value
	case token.AND:
		return f.address(it)
	}
	value := f.value(it.X)
	return Value{Shape: value.Shape, Code: []string{it.Op.String() + value.within(unary+1)}, Binds: unary, Acts: value.Acts}
}

// address is the address of a variable that is shared, or of a new value.
func (f *function) address(it *ast.UnaryExpr) Value {
	x := it.X
	for {
		paren, ok := x.(*ast.ParenExpr)
		if !ok {
			break
		}
		x = paren.X
	}
	if lit, ok := x.(*ast.CompositeLit); ok {
		value := f.literal(lit)
		if tool, ok := isTool(value.Shape); ok {
			return Value{Shape: tool, Code: value.Code, Binds: atom, Acts: true}
		}
		return Value{Shape: Ref{value.Shape}, Code: f.celled(value), Binds: atom, Acts: true}
	}
	where := f.place(x)
	if tool, ok := isTool(where.shape); ok {
		return Value{Shape: tool, Code: where.code, Binds: atom}
	}
	for at, leaf := range where.shape.leaves() {
		if !where.cells[at] && !leaf.Fixed {
			f.refuse(it, "pointers", "the address of this value is not carried", "let it be a variable of its own")
		}
	}
	return Value{Shape: Ref{where.shape}, Code: where.code, Binds: atom}
}

var precedence = map[token.Token]int{
	token.LOR: 1, token.LAND: 2, token.EQL: 3, token.NEQ: 3, token.LSS: 3, token.LEQ: 3, token.GTR: 3, token.GEQ: 3,
	token.ADD: 4, token.SUB: 4, token.OR: 4, token.XOR: 4, token.MUL: 5, token.QUO: 5, token.REM: 5, token.SHL: 5, token.SHR: 5,
	token.AND: 5, token.AND_NOT: 5,
}

func (f *function) binary(it *ast.BinaryExpr) Value {
	if it.Op == token.LAND || it.Op == token.LOR {
		return f.shortened(it)
	}
	if isString(f.typeOf(it)) && it.Op == token.ADD {
		return f.madeText(it)
	}
	sides := f.all([]ast.Expr{it.X, it.Y})
	if it.Op == token.EQL || it.Op == token.NEQ {
		return f.compared(it, sides[0], sides[1])
	}
	for _, side := range sides {
		if text, ok := side.Shape.(Num); ok && text.Text == String {
			f.refuse(it, "texts", "texts that are put in order while the program runs are not carried", "compare numbers")
		}
	}
	shape := sides[0].Shape
	if precedence[it.Op] == 3 {
		shape = Truth{}
	}
	found := f.joined(it.Op, shape, sides[0], sides[1])
	found.Number = computed(it.Op, sides[0].Number, sides[1].Number)
	return found
}

// computed is the number that an operator gives, where both sides are known.
func computed(op token.Token, x, y *int) *int {
	if x == nil || y == nil || (op == token.QUO || op == token.REM) && *y == 0 {
		return nil
	}
	value := map[token.Token]func(a, b int) int{
		token.ADD: func(a, b int) int { return a + b }, token.SUB: func(a, b int) int { return a - b },
		token.MUL: func(a, b int) int { return a * b }, token.QUO: func(a, b int) int { return a / b },
		token.REM: func(a, b int) int { return a % b },
	}[op]
	if value == nil {
		return nil
	}
	found := value(*x, *y)
	return &found
}

func (f *function) joined(op token.Token, shape Shape, x, y Value) Value {
	binds := precedence[op]
	code := x.within(binds) + " " + op.String() + " " + y.within(binds+1)
	return Value{Shape: shape, Code: []string{code}, Binds: binds, Acts: x.Acts || y.Acts}
}

// shortened is `&&` or `||`. Where the right side needs statements of its own, they stand in an `if`.
func (f *function) shortened(it *ast.BinaryExpr) Value {
	x := f.value(it.X)
	before := len(f.instance.pieces)
	y := f.value(it.Y)
	if len(f.instance.pieces) == before {
		return f.joined(it.Op, Truth{}, x, y)
	}
	late := append([]piece(nil), f.instance.pieces[before:]...)
	f.instance.pieces = f.instance.pieces[:before]
	held := f.temporary("holds")
	f.emit(held + " := " + x.one())
	condition := held
	if it.Op == token.LOR {
		condition = "!" + held
	}
	f.open("if " + condition + " {")
	f.instance.pieces = append(f.instance.pieces, late...)
	f.emit(held + " = " + y.one())
	f.close()
	return single(Truth{}, held, false)
}
