package translate

import (
	"go/ast"
	"go/token"
	"go/types"
)

// A callGraph has which functions each function may call in its own goroutine, and which of them may panic.
type callGraph struct {
	*facts
	calls   map[*body]map[*body]bool
	panics  map[*body]bool // by a call of panic
	faults  map[*body]bool // as Go itself panics
	values  map[*body]bool // functions that are handed on as values
	dynamic map[*body]bool // functions that call a value
}

// findPanics finds the functions that may come to a call of panic in their own goroutine.
func (f *facts) findPanics() {
	graph := &callGraph{f, map[*body]map[*body]bool{}, map[*body]bool{}, map[*body]bool{}, map[*body]bool{}, map[*body]bool{}}
	for _, it := range f.bodies {
		graph.calls[it] = map[*body]bool{}
		if it.lit != nil {
			graph.values[it] = true
		}
		if it.block != nil {
			graph.visit(it, it.block)
		}
	}
	for it, isDynamic := range graph.dynamic {
		for value := range graph.values {
			if isDynamic {
				graph.calls[it][value] = true
			}
		}
	}
	graph.spreadTo(graph.panics)
	graph.spreadTo(graph.faults)
	f.mayPanic, f.mayFault = graph.panics, graph.faults
}

// spreadTo adds to some functions all that call one of them.
func (g *callGraph) spreadTo(some map[*body]bool) {
	for changed := true; changed; {
		changed = false
		for it, others := range g.calls {
			for other := range others {
				if some[other] && !some[it] {
					some[it], changed = true, true
				}
			}
		}
	}
}

// visit notes what a part of a function calls.
func (g *callGraph) visit(of *body, node ast.Node) {
	ast.Inspect(node, func(inner ast.Node) bool {
		switch it := inner.(type) {
		case *ast.FuncLit:
			return false
		case *ast.GoStmt:
			for _, arg := range it.Call.Args {
				g.visit(of, arg)
			}
			return false
		case *ast.SendStmt, *ast.IndexExpr, *ast.BinaryExpr:
			g.faults[of] = g.faults[of] || g.mayFail(it)
		case *ast.CallExpr:
			g.call(of, it)
		case *ast.Ident:
			if known := g.declared[g.src.Info.Uses[it]]; known != nil {
				g.values[known] = true
			}
		}
		return true
	})
}

// mayFail says whether Go may panic at a send, an index or a division by itself.
func (g *callGraph) mayFail(node ast.Node) bool {
	switch it := node.(type) {
	case *ast.SendStmt:
		return g.src.Closes()
	case *ast.IndexExpr:
		_, isMap := under(g.typeOf(it.X)).(*types.Map)
		return !isMap && g.src.Info.Types[it.Index].Value == nil
	case *ast.BinaryExpr:
		return (it.Op == token.QUO || it.Op == token.REM) && g.src.Info.Types[it.Y].Value == nil
	}
	return false
}

// call notes a call: of a function of the program, of panic, or of a value.
func (g *callGraph) call(of *body, it *ast.CallExpr) {
	fun := unparen(it.Fun)
	name, _ := fun.(*ast.Ident)
	if selector, ok := fun.(*ast.SelectorExpr); ok {
		name = selector.Sel
	}
	if lit, ok := fun.(*ast.FuncLit); ok && g.bodies[lit] != nil {
		g.calls[of][g.bodies[lit]] = true
		return
	}
	if name == nil {
		g.dynamic[of] = true
		return
	}
	switch object := g.src.Info.Uses[name].(type) {
	case *types.Builtin:
		g.panics[of] = g.panics[of] || object.Name() == "panic"
		g.faults[of] = g.faults[of] || object.Name() == "close"
	case *types.Func:
		for _, other := range g.calledBy(object) {
			g.calls[of][other] = true
		}
		if object.Pkg() != nil && object.Pkg() != g.src.Pkg {
			g.panics[of] = g.panics[of] || isLogPanic(object)
			g.dynamic[of] = g.dynamic[of] || takesFunction(object)
		}
	case *types.Var:
		g.dynamic[of] = true
	}
}

func isLogPanic(object *types.Func) bool {
	switch object.Pkg().Path() + "." + object.Name() {
	case "log.Panic", "log.Panicf", "log.Panicln":
		return true
	}
	return false
}

// takesFunction says whether a function of a package takes another one, which it may call.
func takesFunction(object *types.Func) bool {
	params := object.Type().(*types.Signature).Params()
	for at := 0; at < params.Len(); at++ {
		if _, ok := under(params.At(at).Type()).(*types.Signature); ok {
			return true
		}
	}
	return false
}
