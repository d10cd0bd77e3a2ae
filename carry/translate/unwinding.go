package translate

import (
	"go/ast"
	"regexp"
	"strings"
)

// At a panic Go runs what is deferred: in the function, and then in those that called it. A function of the carried program cannot
// return in another way than usual. So where it may panic, its callers hand it a function that runs what they have deferred.

// An unwinding is a function that runs what the callers of a function have deferred, with the values that it needs.
type unwinding struct {
	name  string
	given []string // under their names where it is handed on
	types []string
}

// key tells instances of one function apart that unwind differently.
func (u *unwinding) key() string {
	if u == nil {
		return ""
	}
	return "|unwinds " + u.name
}

// code is what is handed on of it.
func (u *unwinding) code() []string {
	if u == nil {
		return nil
	}
	return u.given
}

// unwindParameters declares what the function is given to unwind.
func (f *function) unwindParameters() []string {
	var params []string
	if given := f.instance.unwind; given != nil {
		own := &unwinding{name: given.name, types: given.types}
		for at, name := range given.given {
			own.given = append(own.given, f.typedName(name, given.types[at]))
			params = append(params, own.given[at]+" "+given.types[at])
		}
		f.unwind = own
	}
	return params
}

// typedName is a new name for a variable of a type.
func (f *function) typedName(wanted, t string) string {
	name := f.name(wanted)
	f.typed[name] = t
	return name
}

// unwindingFor is what a function that is called in this goroutine is given: nil where it cannot panic, or where nothing is deferred.
func (f *function) unwindingFor(called *body) *unwinding {
	if f.isApart || !f.mayPanic[called] {
		return nil
	}
	if len(f.deferred) == 0 {
		return f.unwind
	}
	node := &ast.Ident{NamePos: f.at}
	found := f.unwindsHere(node)
	for _, it := range f.active {
		if it.body == called && it.unwind != nil && it.unwind.name != found.name {
			f.refuse(node, "panic", "a panic in a function that calls itself with something deferred is not carried", "return an error in place of the panic")
		}
	}
	return found
}

// unwindsHere is a function that runs what is deferred here, and then what the callers have deferred.
func (f *function) unwindsHere(node ast.Node) *unwinding {
	f.panicsInLoop = f.panicsInLoop || f.isInLoop()
	known := map[string]bool{}
	for name := range f.names {
		known[name] = true
	}
	before := len(f.instance.pieces)
	f.runDeferred()
	f.unwindOn()
	late := f.moved(before)
	key := ""
	for _, it := range late {
		key += it.text + "\n"
	}
	if found := f.unwindings[key]; found != nil {
		return found
	}
	found := &unwinding{name: f.program.name(f.instance.name + "_unwind")}
	for _, name := range namesIn(key) {
		if !known[name] {
			continue
		}
		if f.typed[name] == "" {
			f.refuse(node, "panic", "what is deferred here is not carried at a panic", "put what it uses into variables")
		}
		found.given, found.types = append(found.given, name), append(found.types, f.typed[name])
	}
	f.unwindings[key] = found
	f.writeUnwinding(found, late)
	return found
}

// writeUnwinding writes the function of an unwinding behind the others.
func (f *function) writeUnwinding(it *unwinding, late []piece) {
	var params []string
	for at, name := range it.given {
		params = append(params, name+" "+it.types[at])
	}
	pieces := []piece{{"func " + it.name + "(" + commas(params) + ") {", f.at, opens, ""}}
	pieces = append(append(pieces, late...), piece{"}", f.at, closes, ""})
	f.program.written = append(f.program.written, &instance{body: f.instance.body, name: it.name, pieces: pieces, again: true})
}

// unwindOn runs what the callers have deferred.
func (f *function) unwindOn() {
	if f.unwind != nil {
		f.emit(f.unwind.name + "(" + commas(f.unwind.given) + ")")
	}
}

var word = regexp.MustCompile(`"(\\.|[^"\\])*"|[A-Za-z_][A-Za-z0-9_]*`)

// namesIn are the names in a text of the language, each once.
func namesIn(text string) []string {
	var found []string
	seen := map[string]bool{}
	for _, name := range word.FindAllString(text, -1) {
		if !seen[name] && !strings.HasPrefix(name, `"`) {
			seen[name] = true
			found = append(found, name)
		}
	}
	return found
}
