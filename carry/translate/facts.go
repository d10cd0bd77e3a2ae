package translate

import (
	"go/ast"
	"go/token"
	"go/types"
	"sort"

	"rewind/carry/source"
)

// A body is a declared function, a method, or a function literal.
type body struct {
	number  int
	name    string
	decl    *ast.FuncDecl // or nil
	lit     *ast.FuncLit  // or nil
	sign    *types.Signature
	block   *ast.BlockStmt
	held    []*types.Var // of a literal: the variables around it that it uses
	globals []*types.Var // the variables of the package that it uses, or what it calls or mentions
	uses    map[*body]bool
	outer   *body
}

// facts are what is known of a program before it is translated.
type facts struct {
	src           *source.Source
	bodies        map[ast.Node]*body        // of declarations and literals
	declared      map[types.Object]*body    // of functions and methods
	assigned      map[types.Object]bool     // variables that something assigns to after their declaration
	addressed     map[types.Object]bool     // variables whose address is taken
	captured      map[types.Object]bool     // variables that a literal uses and that are declared outside it
	turning       map[types.Object]bool     // variables of a loop that only its heading assigns to
	indexed       map[types.Object]bool     // arrays with an element that is assigned to by a number that is not constant
	writtenFields map[*types.Var]bool       // fields that something assigns to
	slices        map[string]bool           // types of elements of slices to which something assigns
	initial       map[types.Object]ast.Expr // of a variable that is never assigned to, what it is declared with
	grown         map[types.Object]bool     // variables and fields to which something is appended
	queued        map[types.Object]bool     // those of them from whose beginning elements are taken
	nilTools      bool                      // whether a pointer to a struct with a tool in it may be nil
	mayPanic      map[*body]bool            // functions that may come to a call of panic in their own goroutine
	mayFault      map[*body]bool            // functions that may come to where Go itself panics
}

func factsOf(src *source.Source) *facts {
	f := &facts{
		src: src, bodies: map[ast.Node]*body{}, declared: map[types.Object]*body{}, assigned: map[types.Object]bool{},
		addressed: map[types.Object]bool{}, captured: map[types.Object]bool{}, turning: map[types.Object]bool{},
		indexed: map[types.Object]bool{}, writtenFields: map[*types.Var]bool{}, slices: map[string]bool{},
		initial: map[types.Object]ast.Expr{}, grown: map[types.Object]bool{}, queued: map[types.Object]bool{},
	}
	f.findBodies()
	f.findLoops()
	f.findGrown()
	f.findAssignments()
	f.findUses()
	f.findPanics()
	return f
}

// findBodies finds all functions, and names the literals after the functions around them.
func (f *facts) findBodies() {
	for _, it := range f.src.File.Decls {
		switch decl := it.(type) {
		case *ast.FuncDecl:
			object, ok := f.src.Info.Defs[decl.Name].(*types.Func)
			if !ok {
				continue
			}
			sign := object.Type().(*types.Signature)
			found := &body{number: len(f.bodies), name: functionName(decl, sign), decl: decl, sign: sign, block: decl.Body, uses: map[*body]bool{}}
			f.bodies[decl], f.declared[object] = found, found
			f.findLiterals(decl.Body, found)
		case *ast.GenDecl:
			f.findLiterals(decl, &body{name: "init"})
		}
	}
}

func functionName(decl *ast.FuncDecl, sign *types.Signature) string {
	if sign.Recv() == nil {
		return decl.Name.Name
	}
	return nameOf(sign.Recv().Type()) + "_" + decl.Name.Name
}

// nameOf is the name of a declared type, or of the one that a pointer leads to.
func nameOf(t types.Type) string {
	if pointer, ok := t.(*types.Pointer); ok {
		t = pointer.Elem()
	}
	if named, ok := t.(*types.Named); ok {
		return named.Obj().Name()
	}
	return "value"
}

func (f *facts) findLiterals(node ast.Node, outer *body) {
	if node == nil || node == ast.Node((*ast.BlockStmt)(nil)) {
		return
	}
	count := 0
	ast.Inspect(node, func(it ast.Node) bool {
		lit, ok := it.(*ast.FuncLit)
		if !ok {
			return true
		}
		sign, ok := f.src.Info.Types[lit].Type.(*types.Signature)
		if !ok {
			return false
		}
		count++
		found := &body{
			number: len(f.bodies), name: outer.name + "_func" + itoa(count), lit: lit, sign: sign, block: lit.Body, outer: outer,
			uses: map[*body]bool{},
		}
		f.bodies[lit] = found
		f.findLiterals(lit.Body, found)
		return false
	})
}

// findLoops finds the variables of loops that only the headings of these assign to.
func (f *facts) findLoops() {
	ast.Inspect(f.src.File, func(node ast.Node) bool {
		switch loop := node.(type) {
		case *ast.ForStmt:
			if init, ok := loop.Init.(*ast.AssignStmt); ok && init.Tok == token.DEFINE {
				f.turn(init.Lhs, loop.Body)
			}
		case *ast.RangeStmt:
			if loop.Tok == token.DEFINE {
				f.turn([]ast.Expr{loop.Key, loop.Value}, loop.Body)
			}
		}
		return true
	})
}

func (f *facts) turn(names []ast.Expr, body *ast.BlockStmt) {
	inside := map[types.Object]bool{}
	f.eachAssigned(body, func(to ast.Expr) {
		if object := f.root(to); object != nil {
			inside[object] = true
		}
	})
	for _, it := range names {
		if name, ok := it.(*ast.Ident); ok {
			if object := f.src.Info.Defs[name]; object != nil && !inside[object] {
				f.turning[object] = true
			}
		}
	}
}

func (f *facts) object(name *ast.Ident) types.Object {
	if object := f.src.Info.Defs[name]; object != nil {
		return object
	}
	return f.src.Info.Uses[name]
}

func (f *facts) typeOf(e ast.Expr) types.Type { return f.src.Info.TypeOf(e) }

func under(t types.Type) types.Type {
	if t == nil {
		return nil
	}
	return t.Underlying()
}

func isPointer(t types.Type) bool {
	_, ok := under(t).(*types.Pointer)
	return ok
}

// findUses finds which variables each function uses from outside it.
func (f *facts) findUses() {
	for _, it := range f.bodies {
		f.findUsesOf(it)
	}
	f.spread()
	for _, it := range f.bodies {
		byPlace(it.held)
		byPlace(it.globals)
	}
}

func byPlace(list []*types.Var) {
	sort.Slice(list, func(i, j int) bool { return list[i].Pos() < list[j].Pos() })
}

func (f *facts) findUsesOf(it *body) {
	if it.block == nil {
		return
	}
	ast.Inspect(it.block, func(node ast.Node) bool {
		if lit, ok := node.(*ast.FuncLit); ok && f.bodies[lit] != nil {
			it.uses[f.bodies[lit]] = true
		}
		name, ok := node.(*ast.Ident)
		if !ok {
			return true
		}
		switch object := f.src.Info.Uses[name].(type) {
		case *types.Var:
			f.useVariable(it, object)
		case *types.Func:
			for _, other := range f.calledBy(object) {
				it.uses[other] = true
			}
		}
		return true
	})
}

// calledBy are the functions that a use of a function may call: of a method of an interface all of this name.
func (f *facts) calledBy(object *types.Func) []*body {
	if known := f.declared[object]; known != nil {
		return []*body{known}
	}
	receiver := object.Type().(*types.Signature).Recv()
	if receiver == nil || object.Pkg() != f.src.Pkg {
		return nil
	}
	var found []*body
	for other, it := range f.declared {
		if it.sign.Recv() != nil && other.Name() == object.Name() {
			found = append(found, it)
		}
	}
	return found
}

func (f *facts) useVariable(it *body, object *types.Var) {
	switch {
	case object.IsField() || object.Pkg() != f.src.Pkg:
	case object.Parent() == f.src.Pkg.Scope():
		it.globals = with(it.globals, object)
	case it.lit != nil && (object.Pos() < it.lit.Pos() || object.Pos() > it.lit.End()):
		it.held = with(it.held, object)
		f.captured[object] = true
	}
}

func with(list []*types.Var, one *types.Var) []*types.Var {
	for _, it := range list {
		if it == one {
			return list
		}
	}
	return append(list, one)
}

// spread hands the variables of the package on to all that call or mention a function.
func (f *facts) spread() {
	for changed := true; changed; {
		changed = false
		for _, it := range f.bodies {
			for other := range it.uses {
				for _, global := range other.globals {
					if list := with(it.globals, global); len(list) > len(it.globals) {
						it.globals, changed = list, true
					}
				}
			}
		}
	}
}

// isShared says whether a variable lies in cells: where others than its own function see it change.
func (f *facts) isShared(object types.Object, sharesLoops bool) bool {
	if f.addressed[object] || f.indexed[object] || f.grown[object] {
		return true
	}
	if f.isGlobal(object) {
		return f.assigned[object]
	}
	return f.captured[object] && f.assigned[object] && (sharesLoops || !f.turning[object])
}

func (f *facts) isGlobal(object types.Object) bool {
	return f.src.Pkg != nil && object.Parent() == f.src.Pkg.Scope()
}
