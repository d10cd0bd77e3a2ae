package translate

import (
	"go/ast"
	"go/token"
	"go/types"
	"strings"

	"rewind/carry/notes"
)

// A binding says in which variables of the language a variable of Go is held.
type binding struct {
	shape  Shape // that of the value, or a Ref to it where it is shared
	shared bool
	names  []string
}

// A piece is a statement of the output, or the head or the end of a block.
type piece struct {
	text string
	at   token.Pos
	kind kind

	moves string // what the values that go over a channel in it stand for
}

type kind int

const (
	plainPiece kind = iota
	opens           // `if x {`
	turns           // `} else {`
	closes          // `}`
	clause          // `case x := <-c:`, or a label
)

// obstacle ends the translation of a statement; what stands against it is noted already.
type obstacle struct{}

// A function is one instance while it is translated.
type function struct {
	*program
	instance *instance
	names    map[string]bool
	bound    map[types.Object]*binding
	early    map[ast.Expr]Value // calls that are found before what stands beside them
	typed    map[string]string  // the types of its variables
	outs     [][]string         // for each result but the first, the channels of its leaves
	named    []*types.Var       // named results
	deferred []func(*function)
	heads    []piece // declarations at its beginning
	depth    int     // of blocks
	breaks   []target
	at       token.Pos // of the statement that is translated
	loops    int       // that have no label in the source

	unwind       *unwinding            // what it runs at a panic of what its callers have deferred
	unwindings   map[string]*unwinding // that it hands on, by their texts
	isApart      bool                  // whether what is called now goes in another goroutine
	panicsInLoop bool                  // whether a panic may come within a loop

	loopDefers int    // statements of `defer` within loops
	handed     string // what the values stand for that the present statement hands on
	heading    string
}

// A target is a statement that `break` or `continue` may name.
type target struct {
	label      string // in the source, or empty
	out        string // the label in the output that is to be named, or empty
	isLoop     bool
	isSwitch   bool // a switch became a chain of ifs: `break` leaves the loop of one turn around it
	needsLabel bool
}

func blankFunction(p *program, it *instance) *function {
	return &function{
		program: p, instance: it, names: map[string]bool{}, bound: map[types.Object]*binding{}, early: map[ast.Expr]Value{},
		typed: map[string]string{}, unwindings: map[string]*unwinding{},
	}
}

func newFunction(p *program, it *instance, arguments, held []Shape) *function {
	f := blankFunction(p, it)
	var params []string
	at := 0
	take := func(object *types.Var) {
		params = append(params, f.parameter(object, arguments[at])...)
		at++
	}
	if it.body.decl != nil && it.body.name == "main" && it.body.sign.Recv() == nil {
		f.heading = "func main() {"
		return f
	}
	if receiver := it.body.sign.Recv(); receiver != nil {
		take(receiver)
	}
	for n := 0; n < it.body.sign.Params().Len(); n++ {
		take(it.body.sign.Params().At(n))
	}
	for n, object := range it.body.held {
		params = append(params, f.heldParameter(object, held[n])...)
	}
	for _, object := range it.globals {
		if known := p.globals[object]; known != nil {
			params = append(params, f.heldParameter(object, known.shape)...)
		}
	}
	params = append(params, f.unwindParameters()...)
	params = append(params, f.results()...)
	f.heading = "func " + it.name + "(" + strings.Join(params, ", ") + ")" + f.result() + " {"
	return f
}

// parameter declares a parameter. Where it is shared, its value is put into cells first of all.
func (f *function) parameter(object *types.Var, shape Shape) []string {
	base := object.Name()
	if base == "" || base == "_" {
		base = "unused"
	}
	names := f.leafNames(base, shape)
	f.bound[object] = &binding{shape: shape, names: names}
	return declared(names, shape)
}

func (f *function) heldParameter(object *types.Var, shape Shape) []string {
	names := f.leafNames(object.Name(), shape)
	_, shared := shape.(Ref)
	f.bound[object] = &binding{shape: shape, shared: shared && f.isShared(object, f.options.SharesLoops), names: names}
	return declared(names, shape)
}

func declared(names []string, shape Shape) []string {
	var found []string
	for at, leaf := range shape.leaves() {
		found = append(found, names[at]+" "+leaf.Type)
	}
	return found
}

// leafNames are names for the leaves of a variable.
func (f *function) leafNames(base string, shape Shape) []string {
	var names []string
	for _, leaf := range shape.leaves() {
		names = append(names, f.name(join(base, leaf.Suffix)))
	}
	f.showAs(names, shape)
	return names
}

// name is a name for a variable that nothing else in the function has.
func (f *function) name(wanted string) string {
	wanted = plain(wanted)
	found := wanted
	for n := 2; f.names[found] || f.program.names[found]; n++ {
		found = wanted + "_" + itoa(n)
	}
	f.names[found], f.locals[found] = true, true
	return found
}

// temporary is a name for a value on its way.
func (f *function) temporary(base string) string { return f.name(base) }

// results declares a channel for each leaf of the results but the first.
func (f *function) results() []string {
	var params []string
	list := f.instance.body.sign.Results()
	isWhole := true
	for n := 0; n < list.Len(); n++ {
		isWhole = f.attempt(f.node(), func() {
			f.instance.results = append(f.instance.results, f.shapeOf(list.At(n).Type(), placeOf(list.At(n))))
		}) && isWhole
	}
	if !isWhole {
		panic(obstacle{})
	}
	for n, leaf := range f.resultLeaves() {
		if n > 0 {
			name := f.typedName("result_"+itoa(n+1), "chan "+leaf.Type)
			f.outs = append(f.outs, []string{name})
			params = append(params, name+" chan "+leaf.Type)
		}
	}
	return params
}

func (f *function) resultLeaves() []Leaf {
	var found []Leaf
	for _, shape := range f.instance.results {
		found = append(found, shape.leaves()...)
	}
	return found
}

func (f *function) result() string {
	if leaves := f.resultLeaves(); len(leaves) > 0 {
		return " " + leaves[0].Type
	}
	return ""
}

func (f *function) node() ast.Node { return placeOfBody(f.instance.body) }

// translate writes the pieces of the function.
func (f *function) translate() {
	it := f.instance.body
	f.at = f.node().Pos()
	f.put(opens, f.heading)
	f.attempt(f.node(), func() {
		if it.name == "main" && it.decl != nil {
			f.declareGlobals()
		}
		f.shareParameters()
		f.nameResults()
	})
	if it.block != nil {
		f.block(it.block.List)
		f.at = it.block.Rbrace
		f.attempt(f.node(), f.end)
	}
	f.put(closes, "}")
	pieces := append(f.instance.pieces[:1:1], f.heads...)
	f.instance.pieces = append(pieces, f.instance.pieces[1:]...)
	f.dropLabels()
}

// dropLabels takes away labels that no jump names any more.
func (f *function) dropLabels() {
	var kept []piece
	for _, it := range f.instance.pieces {
		label := strings.TrimSuffix(it.text, ":")
		if it.kind == clause && !strings.Contains(label, " ") && label != "default" && !f.jumpsTo(label) {
			continue
		}
		kept = append(kept, it)
	}
	f.instance.pieces = kept
}

func (f *function) jumpsTo(label string) bool {
	for _, it := range f.instance.pieces {
		if it.text == "break "+label || it.text == "continue "+label {
			return true
		}
	}
	return false
}

// shareParameters puts parameters that are shared into cells.
func (f *function) shareParameters() {
	list := f.instance.body.sign.Params()
	for n := 0; n < list.Len(); n++ {
		object := list.At(n)
		if known := f.bound[object]; known != nil && f.isShared(object, f.options.SharesLoops) && !isShared(known.shape) {
			f.bind(object, Value{Shape: known.shape, Code: known.names, Binds: atom})
		}
	}
	if receiver := f.instance.body.sign.Recv(); receiver != nil && f.bound[receiver] != nil && f.isShared(receiver, false) && !isShared(f.bound[receiver].shape) {
		f.bind(receiver, Value{Shape: f.bound[receiver].shape, Code: f.bound[receiver].names, Binds: atom})
	}
}

// isShared says whether all leaves of a shape are shared by copies of it already.
func isShared(shape Shape) bool {
	switch shape.(type) {
	case Tool, Func:
		return true
	}
	return false
}

func (f *function) nameResults() {
	list := f.instance.body.sign.Results()
	for n := 0; n < list.Len(); n++ {
		object := list.At(n)
		if object.Name() == "" {
			return
		}
		f.named = append(f.named, object)
		f.bind(object, f.zero(f.instance.results[n]))
	}
}

// end runs what is deferred where the last statement does not return, and gives the language a `return` at the end.
func (f *function) end() {
	list := f.instance.body.block.List
	if len(list) > 0 {
		if _, ok := list[len(list)-1].(*ast.ReturnStmt); ok {
			return
		}
	}
	if f.instance.body.sign.Results().Len() == 0 {
		f.runDeferred()
		return
	}
	if leaves := f.resultLeaves(); len(leaves) > 0 {
		f.emit("return " + zeroOf(leaves[0].Type))
	}
}

func zeroOf(t string) string {
	switch t {
	case "int":
		return "0"
	case "bool":
		return "false"
	}
	return "nil"
}

func (f *function) runDeferred() {
	all := f.deferred
	for at := len(all) - 1; at >= 0; at-- {
		f.deferred = all[:at] // what is left if this one panics
		all[at](f)
	}
	f.deferred = all
}

// attempt translates a part, and says whether that was done: an obstacle in it ends only this part. What the translation itself does not
// foresee is an obstacle, too.
func (f *function) attempt(node ast.Node, do func()) (done bool) {
	defer func() {
		fault := recover()
		if _, ok := fault.(obstacle); fault != nil && !ok && !f.isSurvey {
			f.told.Add(f.src.Fset.Position(node.Pos()), notes.Left, "statements", "this statement is not carried", "write it in a plainer form")
		}
	}()
	do()
	return true
}

// refuse notes what is not carried, and ends the statement.
func (f *function) refuse(node ast.Node, rule, what, advice string) {
	f.told.Add(f.src.Fset.Position(node.Pos()), notes.Left, rule, what, advice)
	panic(obstacle{})
}

func (f *function) put(kind kind, text string) {
	f.instance.pieces = append(f.instance.pieces, piece{text, f.at, kind, f.handed})
}

func (f *function) emit(text string) { f.put(plainPiece, text) }

func (f *function) open(text string)  { f.put(opens, text) }
func (f *function) close()            { f.put(closes, "}") }
func (f *function) turn(text string)  { f.put(turns, text) }
func (f *function) label(text string) { f.put(clause, text) }
