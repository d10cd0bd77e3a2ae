package translate

import (
	"go/ast"
	"go/token"
	"go/types"
	"strings"
)

// block translates statements one after another; what is not carried ends only its own statement.
func (f *function) block(list []ast.Stmt) {
	f.depth++
	for _, stmt := range list {
		f.statement(stmt, "")
	}
	f.depth--
}

func (f *function) statement(stmt ast.Stmt, label string) {
	f.at, f.handed = stmt.Pos(), ""
	before := len(f.instance.pieces)
	if !f.attempt(stmt, func() { f.carryOver(stmt, label) }) {
		f.loseNames(stmt)
		f.noteInside(stmt)
		f.instance.pieces = f.instance.pieces[:before]
	}
}

// noteInside notes the obstacles in the blocks of a statement that is not carried.
func (f *function) noteInside(stmt ast.Stmt) {
	ast.Inspect(stmt, func(node ast.Node) bool {
		switch it := node.(type) {
		case *ast.FuncLit:
			return false
		case *ast.CaseClause:
			f.block(it.Body)
			return false
		case *ast.CommClause:
			f.block(it.Body)
			return false
		case *ast.BlockStmt:
			if hasClauses(it) {
				return true
			}
			f.block(it.List)
			return false
		}
		return true
	})
}

func hasClauses(it *ast.BlockStmt) bool {
	if len(it.List) == 0 {
		return false
	}
	switch it.List[0].(type) {
	case *ast.CaseClause, *ast.CommClause:
		return true
	}
	return false
}

// loseNames marks the variables that a statement declares as not carried, so that their uses are not noted, too.
func (f *function) loseNames(stmt ast.Stmt) {
	ast.Inspect(stmt, func(node ast.Node) bool {
		if _, ok := node.(*ast.FuncLit); ok {
			return false
		}
		if name, ok := node.(*ast.Ident); ok {
			if object, ok := f.src.Info.Defs[name].(*types.Var); ok && f.bound[object] == nil {
				f.bad[object] = true
			}
		}
		return true
	})
}

func (f *function) carryOver(stmt ast.Stmt, label string) {
	switch it := stmt.(type) {
	case *ast.EmptyStmt:
	case *ast.ExprStmt:
		f.expression(it)
	case *ast.SendStmt:
		f.send(it)
	case *ast.IncDecStmt:
		op := map[token.Token]token.Token{token.INC: token.ADD, token.DEC: token.SUB}[it.Tok]
		f.update(it, it.X, op, number(1), it.Tok.String())
	case *ast.AssignStmt:
		f.assign(it)
	case *ast.GoStmt:
		f.starts(it)
	case *ast.DeferStmt:
		f.defers(it)
	case *ast.ReturnStmt:
		f.returns(it)
	case *ast.BranchStmt:
		f.branch(it)
	case *ast.BlockStmt:
		f.open("{")
		f.block(it.List)
		f.at = it.Rbrace
		f.close()
	case *ast.LabeledStmt:
		f.carryOver(it.Stmt, it.Label.Name)
	case *ast.DeclStmt:
		f.declaration(it.Decl.(*ast.GenDecl))
	default:
		f.control(stmt, label)
	}
}

// control translates a statement that chooses or repeats.
func (f *function) control(stmt ast.Stmt, label string) {
	switch it := stmt.(type) {
	case *ast.IfStmt:
		f.ifs(it)
	case *ast.SwitchStmt:
		f.switches(it, label)
	case *ast.SelectStmt:
		f.selects(it, label)
	case *ast.ForStmt:
		f.loop(it, label)
	case *ast.RangeStmt:
		f.ranges(it, label)
	case *ast.TypeSwitchStmt:
		f.typeSwitch(it, label)
	default:
		f.refuse(it, "statements", "this statement is not carried", "")
	}
}

func (f *function) expression(it *ast.ExprStmt) {
	x := unparen(it.X)
	if arrow, ok := x.(*ast.UnaryExpr); ok && arrow.Op == token.ARROW {
		from := f.value(arrow.X)
		f.emit("<-" + from.within(unary))
		return
	}
	call, ok := x.(*ast.CallExpr)
	if !ok {
		f.refuse(it, "statements", "this statement is not carried", "")
	}
	for _, value := range f.call(call) {
		if value.Acts && len(value.Code) > 0 {
			if strings.HasSuffix(value.Code[0], ")") && len(value.Code) == 1 && !strings.HasPrefix(value.Code[0], "make(") && !strings.HasPrefix(value.Code[0], "len(") {
				f.emit(value.Code[0])
			} else {
				f.emit(strings.TrimSuffix(strings.Repeat("_, ", len(value.Code)), ", ") + " = " + commas(value.Code))
			}
		}
	}
}

func (f *function) declaration(it *ast.GenDecl) {
	if it.Tok != token.VAR {
		return // constants stand where they are used, and types in the shapes
	}
	for _, spec := range it.Specs {
		f.at = spec.Pos()
		f.declareSpec(spec.(*ast.ValueSpec))
	}
}

func (f *function) declareSpec(spec *ast.ValueSpec) {
	if len(spec.Values) == 0 {
		for _, name := range spec.Names {
			f.declareZero(name)
		}
		return
	}
	for at, e := range spec.Values {
		if len(spec.Values) == len(spec.Names) {
			f.refuseTwoOwners(f.src.Info.Defs[spec.Names[at]], e)
		}
	}
	isKnown := f.attempt(spec, func() { f.checkType(spec.Type) })
	values := f.arguments(spec.Values)
	if !isKnown {
		panic(obstacle{})
	}
	for at, name := range spec.Names {
		value := values[at]
		if object := f.src.Info.Defs[name]; object != nil {
			value = f.fitVariable(value, object, name)
		}
		f.declare(name, value)
	}
}

// checkType refuses a type that is written down and not carried, whatever value goes with it.
func (f *function) checkType(e ast.Expr) {
	if e == nil {
		return
	}
	switch under(f.typeOf(e)).(type) {
	case *types.Slice, *types.Signature:
	default:
		f.shapeOf(f.typeOf(e), e)
	}
}

// fitVariable fits a value to a variable that is declared with it.
func (f *function) fitVariable(value Value, object types.Object, node ast.Node) Value {
	if shape := f.grows(object, node); shape != nil {
		return f.fit(value, shape, node)
	}
	return f.fitType(value, object.Type(), node)
}

// fitType fits a value to a declared type, unless its shape is known from the value alone.
func (f *function) fitType(value Value, t types.Type, node ast.Node) Value {
	switch under(t).(type) {
	case *types.Slice, *types.Signature:
		if _, ok := value.Shape.(Nothing); !ok {
			return value
		}
	}
	return f.fit(value, f.shapeOf(t, node), node)
}

func (f *function) declareZero(name *ast.Ident) {
	object := f.src.Info.Defs[name]
	if object == nil {
		return
	}
	shape := f.grows(object, name)
	if slice, ok := under(object.Type()).(*types.Slice); ok && shape == nil {
		shape = List{0, f.shapeOf(slice.Elem(), name)}
	} else if shape == nil {
		shape = f.shapeOf(object.Type(), name)
	}
	if f.isShared(object, f.options.SharesLoops) || isShared(shape) {
		f.bind(object, f.zero(shape))
		return
	}
	names := f.leafNames(object.Name(), shape)
	f.bound[object] = &binding{shape: shape, names: names}
	value := f.zero(shape)
	for at, leaf := range shape.leaves() {
		if value.Code[at] == zeroOf(leaf.Type) {
			f.emit("var " + names[at] + " " + leaf.Type)
		} else {
			f.emit(names[at] + " := " + value.Code[at])
		}
	}
}

func (f *function) assign(it *ast.AssignStmt) {
	if it.Tok != token.DEFINE && it.Tok != token.ASSIGN {
		op := it.Tok - token.ADD_ASSIGN + token.ADD
		if isString(f.typeOf(it.Lhs[0])) {
			f.lengthen(it)
			return
		}
		value := f.value(it.Rhs[0])
		if calls, _ := f.orderedIn(it.Rhs); len(calls) > 0 && f.readsShared(unparen(it.Lhs[0])) {
			value = f.spill(value, "value")
		}
		f.update(it, it.Lhs[0], op, value, it.Tok.String())
		return
	}
	if len(it.Lhs) == 2 && len(it.Rhs) == 1 && f.assignTwo(it) {
		return
	}
	if call := f.appendsTo(it); call != nil {
		f.grow(it, call)
		return
	}
	if part := f.cuts(it); part != nil {
		f.cut(it, part)
		return
	}
	if f.alias(it) {
		return
	}
	if len(it.Lhs) == len(it.Rhs) {
		for at, to := range it.Lhs {
			f.refuseTwoOwners(f.ownerOf(to), it.Rhs[at])
		}
	}
	f.assignAll(it, it.Lhs, f.arguments(it.Rhs))
}

// assignTwo is a value with a truth value of a receive, a map or an assertion, if it is that.
func (f *function) assignTwo(it *ast.AssignStmt) bool {
	switch from := unparen(it.Rhs[0]).(type) {
	case *ast.UnaryExpr:
		if from.Op == token.ARROW {
			f.receiveTwo(it, from)
			return true
		}
	case *ast.IndexExpr:
		if f.isMap(from.X) {
			f.lookAssigned(it, from)
			return true
		}
	case *ast.TypeAssertExpr:
		f.assertionOfTwo(it, from)
		return true
	}
	return false
}

// alias binds a name to a function that it always stands for; nothing is written.
func (f *function) alias(it *ast.AssignStmt) bool {
	if it.Tok != token.DEFINE || len(it.Lhs) != 1 || len(it.Rhs) != 1 {
		return false
	}
	name, ok := it.Lhs[0].(*ast.Ident)
	if !ok || f.src.Info.Defs[name] == nil {
		return false
	}
	object := f.src.Info.Defs[name]
	if _, ok := under(object.Type()).(*types.Signature); !ok || f.assigned[object] {
		return false
	}
	value := f.value(it.Rhs[0])
	f.bound[object] = &binding{shape: value.Shape, names: value.Code}
	return true
}

// isSteady says whether an expression is a constant or a name.
func (f *facts) isSteady(e ast.Expr) bool {
	_, isName := unparen(e).(*ast.Ident)
	return isName || f.src.Info.Types[e].Value != nil
}

// update is `x op= y`.
func (f *function) update(node ast.Node, to ast.Expr, op token.Token, value Value, written string) {
	before := len(f.instance.pieces)
	where := f.place(to)
	if len(f.instance.pieces) > before && value.Acts {
		f.refuse(node, "arrays", "an index that is looked up beside this value is not carried", "put the value into a variable first")
	}
	if text, ok := where.shape.(Num); !ok || text.Text != Plain {
		f.refuse(node, "texts", "texts that are put together while the program runs are not carried", "print the parts one after another")
	}
	if where.entry == nil && !where.cells[0] {
		code := where.code[0] + " " + written + " " + value.one()
		if written == "++" || written == "--" {
			code = where.code[0] + written
		}
		f.emit(code)
		return
	}
	f.store(where, f.joined(op, where.shape, f.read(where), value), node)
}
