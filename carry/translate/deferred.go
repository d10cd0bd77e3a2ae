package translate

import (
	"go/ast"
	"go/types"
)

// defers keeps a call for the end of the function. Its arguments are found now.
func (f *function) defers(it *ast.DeferStmt) {
	if lit, ok := unparen(it.Call.Fun).(*ast.FuncLit); ok && recovers(lit) {
		f.refuse(it, "recover", "recover is not carried: a panic stops the program, and can be taken back", "return an error in place of the panic")
	}
	f.carry(it, "defer", "what is deferred is written at each return, the last first")
	if f.mayFault[f.instance.body] && !f.tellsFaults {
		f.program.tellsFaults = true
		f.change(it, "defer", "where Go itself panics, as at a send on a closed channel, the program stops before what is deferred")
	}
	run := f.laterCall(it.Call)
	if f.depth > 1 {
		run = f.deferInBlock(it, run)
	}
	f.deferred = append(f.deferred, run)
}

// laterCall is a call whose function and arguments are found now.
func (f *function) laterCall(call *ast.CallExpr) func(*function) {
	if lit, ok := unparen(call.Fun).(*ast.FuncLit); ok && len(call.Args) == 0 {
		fun := f.closure(lit)
		if f.depth > 1 {
			fun = f.hoisted(fun, call)
		}
		return func(f *function) { f.drop(f.apply(call, fun, nil, false)) }
	}
	held := *call
	held.Args = nil
	for _, e := range call.Args {
		held.Args = append(held.Args, f.kept(e))
	}
	rebound := map[types.Object]*binding{}
	if f.depth > 1 {
		f.hoistNames(call.Fun, rebound)
	}
	return func(f *function) {
		before := map[types.Object]*binding{}
		for object, known := range rebound {
			before[object], f.bound[object] = f.bound[object], known
		}
		f.drop(f.call(&held))
		for object, known := range before {
			f.bound[object] = known
		}
	}
}

// deferInBlock keeps a call that is deferred within a block: whether it was, or in a loop how often.
func (f *function) deferInBlock(it *ast.DeferStmt, run func(*function)) func(*function) {
	name := f.temporary("deferred")
	if !f.isInLoop() {
		f.hoist(name, "bool")
		f.emit(name + " = true")
		return func(f *function) {
			f.open("if " + name + " {")
			run(f)
			f.close()
		}
	}
	f.loopDefers++
	if f.loopDefers > 1 || f.returnsBefore(it) || f.panicsInLoop {
		f.refuse(it, "defer", "a defer within a loop is carried only by itself, and behind no return and no panic in the loop", "call it at the end of each turn, or put the turn into a function")
	}
	f.hoist(name, "int")
	f.emit(name + "++")
	return func(f *function) {
		f.open("for ; " + name + " > 0; " + name + "-- {")
		run(f)
		f.close()
	}
}

func (f *function) isInLoop() bool {
	for _, it := range f.breaks {
		if it.isLoop {
			return true
		}
	}
	return false
}

// returnsBefore says whether the function returns before a place within a loop.
func (f *function) returnsBefore(place ast.Node) bool {
	found := false
	var visit func(node ast.Node, isInLoop bool)
	visit = func(node ast.Node, isInLoop bool) {
		ast.Inspect(node, func(inner ast.Node) bool {
			if inner == nil || inner == node {
				return true
			}
			switch stmt := inner.(type) {
			case *ast.FuncLit:
				return false
			case *ast.ForStmt, *ast.RangeStmt:
				visit(stmt, true)
				return false
			case *ast.ReturnStmt:
				found = found || isInLoop && stmt.Pos() < place.Pos()
			}
			return true
		})
	}
	visit(f.instance.body.block, false)
	return found
}

// hoist declares a variable at the beginning of the function.
func (f *function) hoist(name, t string) {
	f.typed[name] = t
	f.heads = append(f.heads, piece{"var " + name + " " + t, f.node().Pos(), plainPiece, ""})
}

// hoisted keeps a value in variables that the whole function sees.
func (f *function) hoisted(value Value, node ast.Node) Value {
	if len(value.Code) == 0 {
		return value
	}
	if f.isInLoop() {
		f.refuse(node, "defer", "a defer within a loop with values of its own is not carried", "put the turn into a function")
	}
	found := Value{Shape: value.Shape, Binds: atom}
	for _, leaf := range value.Shape.leaves() {
		name := f.temporary("kept")
		f.hoist(name, leaf.Type)
		found.Code = append(found.Code, name)
	}
	f.emit(commas(found.Code) + " = " + commas(value.Code))
	return found
}

// hoistNames keeps the variables that an expression names, as they are now.
func (f *function) hoistNames(e ast.Expr, rebound map[types.Object]*binding) {
	ast.Inspect(e, func(node ast.Node) bool {
		name, ok := node.(*ast.Ident)
		if !ok {
			return true
		}
		object, ok := f.object(name).(*types.Var)
		known := f.bound[object]
		if !ok || object.IsField() || known == nil || f.isGlobal(object) || f.isOutside(object) {
			return true
		}
		value := f.hoisted(Value{Shape: known.shape, Code: known.names, Binds: atom}, e)
		rebound[object] = &binding{shape: known.shape, shared: known.shared, names: value.Code}
		return true
	})
}

// isOutside says whether a variable is one that the whole function sees, and that never changes.
func (f *function) isOutside(object *types.Var) bool {
	if f.assigned[object] && !f.isShared(object, f.options.SharesLoops) {
		return false
	}
	scope := f.src.Info.Scopes[f.typeNode()]
	return scope == nil || object.Parent() == scope || object.Pos() < f.instance.body.block.Pos()
}

// typeNode is the node that has the scope of the function's own block.
func (f *function) typeNode() ast.Node {
	if it := f.instance.body; it.decl != nil {
		return it.decl.Type
	}
	return f.instance.body.lit.Type
}

func recovers(lit *ast.FuncLit) bool {
	found := false
	ast.Inspect(lit, func(node ast.Node) bool {
		if name, ok := node.(*ast.Ident); ok && name.Name == "recover" {
			found = true
		}
		return true
	})
	return found
}

// kept is an argument that is found now and used later: a constant, a name that never changes, or a new variable.
func (f *function) kept(e ast.Expr) ast.Expr {
	if known := f.src.Info.Types[e]; known.Value != nil || known.IsNil() || known.IsType() {
		return e
	}
	if name, ok := unparen(e).(*ast.Ident); ok {
		if object, ok := f.object(name).(*types.Var); ok && !f.assigned[object] && (f.depth <= 1 || f.isOutside(object)) {
			return e
		} else if object := f.object(name); !ok && object != nil && !f.assigned[object] {
			return e
		}
	}
	if _, ok := unparen(e).(*ast.UnaryExpr); ok && toolOf(f.typeOf(e)) != "" {
		return e
	}
	value := f.value(e)
	if f.depth > 1 {
		value = f.hoisted(value, e)
	} else {
		value = f.spill(value, "kept")
	}
	name := &ast.Ident{NamePos: e.Pos(), Name: "kept"}
	object := types.NewVar(e.Pos(), f.src.Pkg, "kept", f.typeOf(e))
	f.src.Info.Uses[name] = object
	f.src.Info.Types[name] = types.TypeAndValue{Type: f.typeOf(e)}
	f.bound[object] = &binding{shape: value.Shape, names: value.Code}
	return name
}
