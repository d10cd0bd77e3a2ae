package translate

import (
	"go/ast"
	"go/token"
	"go/types"
	"strings"
)

// starts is `go f(..)`.
func (f *function) starts(it *ast.GoStmt) {
	f.isApart = true
	defer func() { f.isApart = false }()
	if f.startsOfUnion(it) {
		return
	}
	if to := f.later(it.Call); to != "" {
		f.emit("go " + to)
	}
}

// later is a call as the language starts it: of a function with its arguments. It is empty where it is started already.
func (f *function) later(call *ast.CallExpr) string {
	fun := unparen(call.Fun)
	if selector, ok := fun.(*ast.SelectorExpr); ok {
		if choice := f.src.Info.Selections[selector]; choice != nil && choice.Kind() == types.MethodVal {
			if known := f.declared[choice.Obj()]; known != nil {
				receiver := f.receiver(selector, known.sign.Recv().Type(), choice)
				values := f.fitAll(call, known.sign, f.arguments(call.Args), call.Ellipsis != token.NoPos)
				return f.started(f.prepare(call, Value{Shape: Func{Body: known}}, &receiver, values))
			}
		}
		if f.src.Info.Selections[selector] != nil || f.src.Info.Uses[selector.Sel].Pkg() != f.src.Pkg {
			return f.tail(call)
		}
	}
	if name, ok := fun.(*ast.Ident); ok {
		if _, ok := f.object(name).(*types.Builtin); ok {
			return f.tail(call)
		}
	}
	called := f.functionOrAny(fun)
	if _, ok := called.Shape.(AnyFunc); ok {
		f.eachChoice(f.choicesOfAny(call, called), func(to callee) { f.emit("go " + f.started(to)) })
		return ""
	}
	if _, ok := isTool(called.Shape); ok {
		return f.tail(call)
	}
	sign := called.Shape.(Func).Body.sign
	values := f.fitAll(call, sign, f.arguments(call.Args), call.Ellipsis != token.NoPos)
	return f.started(f.prepare(call, called, nil, values))
}

func (f *function) started(to callee) string {
	var leaves []Leaf
	for _, shape := range to.instance.results {
		leaves = append(leaves, shape.leaves()...)
	}
	code := to.code
	if len(leaves) > 1 {
		code = append(append([]string{}, code...), f.channelsFor(leaves)...)
	}
	return to.instance.name + "(" + commas(code) + ")"
}

// tail is a call of a known package that is one call of the language.
func (f *function) tail(call *ast.CallExpr) string {
	before := len(f.instance.pieces)
	f.call(call)
	after := f.instance.pieces[before:]
	if len(after) != 1 || !strings.HasSuffix(after[0].text, ")") || after[0].kind != plainPiece || strings.HasPrefix(after[0].text, "println") || strings.HasPrefix(after[0].text, "close") {
		f.instance.pieces = f.instance.pieces[:before]
		f.refuse(call, "go", "a goroutine that only does this is not carried", "write a function around it")
	}
	code := after[0].text
	f.instance.pieces = f.instance.pieces[:before]
	return code
}
