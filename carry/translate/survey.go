package translate

import (
	"go/ast"
	"go/types"

	"rewind/carry/notes"
)

// survey notes what stands against functions to which the translation did not come, since what calls them is not carried. So the list
// is whole at once.
func (p *program) survey(main *body) {
	p.isSurvey = true
	reached := p.reachable(main)
	for _, it := range p.inSource() {
		if reached[it] && !p.done[it] && it.block != nil && p.isWritten(it) {
			p.surveyOne(it)
		}
	}
}

// isWritten says whether a function is one to which the language has a like: those with type parameters are noted as a whole.
func (p *program) isWritten(it *body) bool {
	return it.sign.TypeParams().Len() == 0 && it.sign.RecvTypeParams().Len() == 0
}

// inSource are all functions and literals by their numbers.
func (p *program) inSource() []*body {
	found := make([]*body, len(p.bodies))
	for _, it := range p.bodies {
		found[it.number] = it
	}
	return found
}

// reachable are the functions that `main` calls or mentions, directly or over others. What an interface asks for may be any method of
// this name.
func (p *program) reachable(main *body) map[*body]bool {
	found := map[*body]bool{}
	asked := p.askedOfInterfaces()
	var visit func(*body)
	visit = func(it *body) {
		if found[it] {
			return
		}
		found[it] = true
		for other := range it.uses {
			visit(other)
		}
	}
	visit(main)
	for object, it := range p.declared {
		if it.sign.Recv() != nil && asked[object.Name()] {
			visit(it)
		}
	}
	for _, it := range p.bodies {
		if it.outer != nil && it.outer.name == "init" && it.outer.decl == nil {
			visit(it)
		}
	}
	return found
}

// askedOfInterfaces are the names of methods that are called of interfaces.
func (p *program) askedOfInterfaces() map[string]bool {
	found := map[string]bool{}
	for _, choice := range p.src.Info.Selections {
		if _, ok := under(choice.Recv()).(*types.Interface); ok && choice.Kind() == types.MethodVal {
			found[choice.Obj().Name()] = true
		}
	}
	return found
}

// surveyOne translates a function for the notes alone. Variables of which nothing is known here are passed over.
func (p *program) surveyOne(it *body) {
	p.done[it] = true
	f := blankFunction(p, &instance{body: it, name: it.name, again: true})
	f.at = f.node().Pos()
	if receiver := it.sign.Recv(); receiver != nil {
		f.guess(receiver, false)
	}
	for n := 0; n < it.sign.Params().Len(); n++ {
		f.guess(it.sign.Params().At(n), false)
	}
	for _, object := range it.held {
		f.guess(object, true)
	}
	for _, object := range it.globals {
		if f.globals[object] == nil {
			f.bad[object] = true
		}
	}
	f.attempt(f.node(), func() { f.results() })
	if len(f.instance.results) == it.sign.Results().Len() {
		f.attempt(f.node(), f.nameResults)
	}
	f.block(it.block.List)
}

// guess binds a parameter, or a variable that a literal holds, as its type says.
func (f *function) guess(object *types.Var, isHeld bool) {
	if f.bad[object] || f.bound[object] != nil {
		return
	}
	if _, ok := under(object.Type()).(*types.Signature); ok && toolOf(object.Type()) == "" {
		f.bad[object] = true
		return
	}
	var shape Shape
	find := func() {
		if slice, ok := under(object.Type()).(*types.Slice); ok {
			shape = List{mostElements, f.shapeOf(slice.Elem(), placeOf(object))}
			if f.slices[slice.Elem().String()] {
				shape = Ref{shape}
			}
			return
		}
		shape = f.shapeOf(object.Type(), placeOf(object))
	}
	if told := f.told; isHeld {
		f.program.told = &notes.List{}
		f.attempt(placeOf(object), find)
		f.program.told = told
	} else {
		f.attempt(placeOf(object), find)
	}
	if shape == nil {
		f.bad[object] = true
		return
	}
	f.bound[object] = &binding{shape: shape, names: f.leafNames(object.Name(), shape)}
}

// placeOf is the place where a variable is declared.
func placeOf(object types.Object) ast.Node {
	return &ast.Ident{NamePos: object.Pos(), Name: object.Name()}
}
