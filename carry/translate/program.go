// Package translate carries programs of Go over to the language of Rewind.
//
// Each function is translated once for each list of shapes that its arguments have. What a goroutine shares with others lies in
// cells: channels with one value in their buffer, so that each read and each write is a step of its own.
package translate

import (
	"go/ast"
	"go/token"
	"go/types"
	"sort"
	"strings"

	"rewind/carry/notes"
	"rewind/carry/source"
)

// Options say how a program is read.
type Options struct {
	SharesLoops bool // the variables of a loop are shared by its turns, as in Go before 1.22
}

// Result is a program that was carried over, with the place from which each of its lines comes.
type Result struct {
	Text   string
	Places []Place
	Names  map[string]string // functions of the carried program, by what they were
	Texts  []string          // the texts that numbers stand for
	Errors []string          // the texts of errors that numbers stand for

	Forms     []FormShown                  // of texts that are made
	Variables map[string]map[string]string // what a variable of a function stands for, where that is a text or an error
}

// A program is translated from `main` on.
type program struct {
	*facts
	options     Options
	told        *notes.List
	names       map[string]bool      // of functions in the output, and of those declared in the source
	locals      map[string]bool      // of variables in the output
	instances   map[string]*instance // by body and shapes
	written     []*instance
	helpers     map[string]string // names of the helpers that are used, by kind and type
	texted      []func() string   // the texts of helpers, in the order in which they were asked for
	errorPlaces map[ast.Node]int  // the numbers of errors, by the calls that make them
	texts       table
	errors      table
	prints      []print
	forms       []*form                      // of texts that are made while the program runs
	comparisons []ast.Node                   // of texts
	layouts     map[string]*layout           // of function values that are not known where they are called, by their types
	isRelaid    bool                         // whether a layout got one more function
	shown       map[string]map[string]string // by functions and variables, whether their numbers stand for a text or an error
	globals     map[types.Object]*binding
	spoken      map[*ast.CallExpr]*body // calls of methods that say what is printed
	done        map[*body]bool          // functions that were translated
	active      []*instance             // that are translated now, each for a call in the one before
	nesting     int                     // of functions that are translated for a call in another one
	isExhausted bool                    // whether the functions nest too deeply
	isSurvey    bool                    // whether functions are translated for the notes alone
	bad         map[types.Object]bool   // variables whose declaration was not carried
	records     map[string]bool         // types that are being read, so that a type that holds itself ends
	needsCheck  bool                    // whether a pointer may be nil
	tellsFaults bool                    // whether it is told that what is deferred is not run at each fault
}

// A table has the texts that stand behind numbers; the first is that of 0.
type table struct {
	list  []string
	place map[string]int
}

func (t *table) number(text string) int {
	if t.place == nil {
		t.place = map[string]int{}
	}
	if at, ok := t.place[text]; ok {
		return at
	}
	t.place[text] = len(t.list)
	t.list = append(t.list, text)
	return len(t.list) - 1
}

// fresh is a number of its own for a text, so that two errors with one text differ.
func (t *table) fresh(text string) int {
	t.list = append(t.list, text)
	return len(t.list) - 1
}

// reserved are the names that cannot be declared in the language, or that its programs may not have.
var reserved = strings.Fields("int bool true false nil len cap make close println init break case chan const continue default defer else " +
	"fallthrough for func go goto if import interface map package range return select struct switch type var")

// mostPasses is how often a program is translated, until all functions are found that a function value may be.
const mostPasses = 8

// Program carries a program over. What stands against it is in the notes; then the result has no text.
func Program(src *source.Source, options Options, told *notes.List) *Result {
	known, layouts, before := factsOf(src), map[string]*layout{}, *told
	for pass := 0; pass < mostPasses; pass++ {
		*told = before.Copy()
		if found, isWhole := once(known, layouts, options, told); isWhole {
			return found
		}
	}
	told.Add(token.Position{Line: 1, Column: 1}, notes.Left, "functions", "function values that hold one another are not carried", "call the functions by their names")
	return &Result{}
}

// once translates a program, and says whether all functions were known before that a function value may be.
func once(known *facts, layouts map[string]*layout, options Options, told *notes.List) (*Result, bool) {
	p := &program{
		facts: known, layouts: layouts, options: options, told: told, names: map[string]bool{}, locals: map[string]bool{}, instances: map[string]*instance{},
		helpers: map[string]string{}, errorPlaces: map[ast.Node]int{}, globals: map[types.Object]*binding{}, bad: map[types.Object]bool{}, records: map[string]bool{},
		shown: map[string]map[string]string{}, spoken: map[*ast.CallExpr]*body{}, done: map[*body]bool{},
	}
	p.texts.number("")
	p.errors.fresh("<nil>")
	for _, name := range reserved {
		p.names[name] = true
	}
	for object, it := range p.declared {
		if it.sign.Recv() == nil {
			p.names[object.Name()] = true
		}
	}
	p.refuseDeclarations()
	main := p.main()
	if main == nil {
		if told.IsCarried() {
			told.Add(token.Position{Line: 1, Column: 1}, notes.Left, "go", "there is no func main()", "")
		}
		return &Result{}, true
	}
	p.attemptMain(main)
	if p.isRelaid {
		return nil, false
	}
	if !told.IsCarried() {
		p.survey(main)
		return &Result{}, true
	}
	p.tellUnused()
	found := p.write()
	p.checkTexts()
	if !told.IsCarried() {
		return &Result{}, true
	}
	return found, true
}

// attemptMain translates `main`, and with it all that it calls.
func (p *program) attemptMain(main *body) {
	defer func() {
		if fault := recover(); fault != nil && fault != (obstacle{}) {
			p.leave(main.decl.Name, "statements", "this program is not carried", "write it in a plainer form")
		}
	}()
	p.instance(main, nil, nil, nil)
}

func (p *program) main() *body {
	for object, it := range p.declared {
		if object.Name() == "main" && it.sign.Recv() == nil {
			return it
		}
	}
	return nil
}

// refuseDeclarations notes declarations that nothing carries over.
func (p *program) refuseDeclarations() {
	for _, it := range p.src.File.Decls {
		decl, ok := it.(*ast.FuncDecl)
		if !ok {
			continue
		}
		switch {
		case decl.Type.TypeParams != nil:
			p.leave(decl.Name, "generics", "a function with type parameters is not carried", "write it for the type that it is used with")
		case decl.Body == nil:
			p.leave(decl.Name, "go", "a function without a body is not carried", "")
		case decl.Name.Name == "init" && decl.Recv == nil:
			p.leave(decl.Name, "init", "a function init is not carried", "call it from main under another name")
		}
	}
}

// tellUnused notes functions that `main` never comes to: they are left away.
func (p *program) tellUnused() {
	reached := map[*body]bool{}
	for _, it := range p.instances {
		reached[it.body] = true
	}
	for _, it := range p.bodies {
		if it.decl != nil && !reached[it] && it.decl.Name.Name != "init" {
			p.told.Add(p.src.Fset.Position(it.decl.Name.Pos()), notes.Changed, "unused", it.decl.Name.Name+" is never called from main: it is left away", "")
		}
	}
}

func (p *program) leave(node ast.Node, rule, what, advice string) {
	p.told.Add(p.src.Fset.Position(node.Pos()), notes.Left, rule, what, advice)
}

func (p *program) change(node ast.Node, rule, what string) {
	p.told.Add(p.src.Fset.Position(node.Pos()), notes.Changed, rule, what, "")
}

func (p *program) carry(node ast.Node, rule, what string) {
	p.told.Add(p.src.Fset.Position(node.Pos()), notes.Carried, rule, what, "")
}

// name is a name for a function of the output that no other has.
func (p *program) name(wanted string) string {
	wanted = plain(wanted)
	found := wanted
	for n := 2; p.names[found] || p.locals[found]; n++ {
		found = wanted + "_" + itoa(n)
	}
	p.names[found] = true
	return found
}

// plain is a name in the letters of the language.
func plain(name string) string {
	var found strings.Builder
	for _, letter := range name {
		switch {
		case letter == '_' || letter >= '0' && letter <= '9' || letter >= 'a' && letter <= 'z' || letter >= 'A' && letter <= 'Z':
			found.WriteRune(letter)
		default:
			found.WriteByte('x')
		}
	}
	return found.String()
}

// An instance is a function for one list of shapes of its arguments.
type instance struct {
	body    *body
	name    string
	results []Shape
	globals []*types.Var // the variables of the package that it is given
	pieces  []piece
	unwind  *unwinding
	again   bool // whether another instance of its body stands at the place of the source
}

// instance gives the instance of a function for arguments and held variables of these shapes, and translates it where it is new.
func (p *program) instance(it *body, arguments, held []Shape, unwind *unwinding) *instance {
	key := itoa(it.number)
	for _, shape := range append(append([]Shape{}, arguments...), held...) {
		key += "|" + shape.key()
	}
	key += unwind.key()
	if found := p.instances[key]; found != nil {
		return found
	}
	p.nest(it)
	defer func() { p.nesting-- }()
	found := &instance{body: it, again: it.lit != nil, globals: it.globals, unwind: unwind}
	for _, shape := range append(append([]Shape{}, arguments...), held...) {
		found.globals = globalsIn(shape, found.globals)
	}
	for _, one := range p.layouts {
		for _, shape := range one.of {
			found.globals = globalsIn(shape, found.globals)
		}
	}
	for _, other := range p.instances {
		found.again = found.again || other.body == it
	}
	found.name = p.nameOf(found)
	p.instances[key] = found
	f := newFunction(p, found, arguments, held)
	p.written, p.active = append(p.written, found), append(p.active, found)
	f.translate()
	p.active = p.active[:len(p.active)-1]
	p.done[it] = true
	return found
}

const mostNested, mostInstances = 100, 2000

// nest refuses functions that nest without end, as those that call themselves with another function each time.
func (p *program) nest(it *body) {
	p.nesting++
	if p.nesting > mostNested || len(p.instances) > mostInstances {
		if !p.isExhausted {
			p.leave(placeOfBody(it), "functions", it.name+" calls itself with other functions or slices each time, which is not carried",
				"hand the same function on, and a slice of one length")
		}
		p.isExhausted = true
	}
	if p.isExhausted {
		p.nesting--
		panic(obstacle{})
	}
}

func placeOfBody(it *body) ast.Node {
	if it.decl != nil {
		return it.decl.Name
	}
	return it.lit
}

// globalsIn adds the variables of the package that functions in a shape need.
func globalsIn(shape Shape, list []*types.Var) []*types.Var {
	switch it := shape.(type) {
	case Func:
		if it.Receiver != nil {
			list = globalsIn(it.Receiver, list)
		}
		for _, global := range it.Body.globals {
			list = with(list[:len(list):len(list)], global)
		}
		for _, held := range it.Held {
			list = globalsIn(held, list)
		}
	case Ref:
		return globalsIn(it.Of, list)
	case List:
		return globalsIn(it.Elem, list)
	}
	return list
}

// nameOf is the name of an instance: the first one of a declared function keeps its name.
func (p *program) nameOf(it *instance) string {
	if !it.again && it.body.sign.Recv() == nil && plain(it.body.name) == it.body.name {
		return it.body.name
	}
	return p.name(it.body.name)
}

// inOrder are the instances as the source has their functions, and behind these the others.
func (p *program) inOrder() []*instance {
	list := append([]*instance(nil), p.written...)
	sort.SliceStable(list, func(i, j int) bool {
		a, b := list[i], list[j]
		if a.again != b.again {
			return b.again
		}
		return !a.again && a.body.decl.Pos() < b.body.decl.Pos()
	})
	return list
}
