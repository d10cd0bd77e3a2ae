package translate

import (
	"fmt"
	"strings"
)

// A Shape says how a value of Go is held: in which variables of the language, its leaves. Functions are translated once for each list
// of shapes that they are called with, so lengths of slices and function values are known where they are used.
type Shape interface {
	leaves() []Leaf
	// key tells shapes apart.
	key() string
}

// Leaf is one variable of those that hold a value.
type Leaf struct {
	Suffix string // behind the variable's name
	Type   string // of the language
	Of     Shape  // what it holds, of one leaf itself; nil where it is of the carried program's own making
	Fixed  bool   // whether it is never assigned, or is a channel that all copies share
}

// Text says what stands behind a number.
type Text int

// A number is a number, a string of the table of texts, or an error of the table of errors.
const (
	Plain Text = iota
	String
	Error
)

// Num is a whole number, or the number of a text.
type Num struct{ Text Text }

func (s Num) leaves() []Leaf { return []Leaf{{Type: "int", Of: s}} }
func (s Num) key() string    { return [...]string{"int", "string", "error"}[s.Text] }

// Truth is a truth value.
type Truth struct{}

func (s Truth) leaves() []Leaf { return []Leaf{{Type: "bool", Of: s}} }
func (s Truth) key() string    { return "bool" }

// Unit is `struct{}`, of which there is one value.
type Unit struct{}

func (s Unit) leaves() []Leaf { return nil }
func (s Unit) key() string    { return "struct{}" }

// Chan is a channel.
type Chan struct{ Elem Shape }

func (s Chan) leaves() []Leaf { return []Leaf{{Type: "chan " + carried(s.Elem), Of: s}} }
func (s Chan) key() string    { return "chan(" + s.Elem.key() + ")" }

// Field is a field of a record. It is fixed where nothing assigns to it.
type Field struct {
	Name  string
	Shape Shape
	Fixed bool
}

// Record is a struct with fields.
type Record struct {
	Name   string
	Fields []Field
}

func (s Record) leaves() []Leaf {
	var found []Leaf
	for _, field := range s.Fields {
		for _, leaf := range field.Shape.leaves() {
			leaf.Suffix = join(field.Name, leaf.Suffix)
			leaf.Fixed = leaf.Fixed || field.Fixed
			found = append(found, leaf)
		}
	}
	return found
}

func (s Record) key() string {
	var keys []string
	for _, field := range s.Fields {
		keys = append(keys, field.Shape.key())
	}
	return "struct " + s.Name + "{" + strings.Join(keys, ";") + "}"
}

// at gives the number of leaves before a field, and the field's shape.
func (s Record) at(name string) (int, Shape) {
	place := 0
	for _, field := range s.Fields {
		if field.Name == name {
			return place, field.Shape
		}
		place += len(field.Shape.leaves())
	}
	return 0, nil
}

// List is an array, or a slice whose length is known.
type List struct {
	Len  int
	Elem Shape
}

func (s List) leaves() []Leaf {
	var found []Leaf
	for at := 0; at < s.Len; at++ {
		for _, leaf := range s.Elem.leaves() {
			leaf.Suffix = join(fmt.Sprint(at), leaf.Suffix)
			found = append(found, leaf)
		}
	}
	return found
}

func (s List) key() string { return fmt.Sprintf("[%d]%s", s.Len, s.Elem.key()) }

// Ref is what a pointer leads to, or a variable that is shared: each leaf that may change lies in a cell, which is a channel that has
// the value in its buffer.
type Ref struct{ Of Shape }

func (s Ref) leaves() []Leaf {
	found := s.Of.leaves()
	for at := range found {
		if !found[at].Fixed {
			found[at].Type = "chan " + found[at].Type
		}
		found[at].Fixed = false
	}
	return found
}

// cells says of each leaf whether it lies in a cell.
func (s Ref) cells() []bool {
	var found []bool
	for _, leaf := range s.Of.leaves() {
		found = append(found, !leaf.Fixed)
	}
	return found
}

func (s Ref) key() string { return "*" + s.Of.key() }

// Tool is a value of a package that is known: a mutex, a context, .. Its leaves are channels, which copies of it share.
type Tool string

// The tools, each with its leaves.
const (
	Mutex     Tool = "mutex"
	RWMutex   Tool = "rwmutex"
	WaitGroup Tool = "waitgroup"
	Once      Tool = "once"
	Cond      Tool = "cond"
	Timer     Tool = "timer"
	Context   Tool = "context"
	Cancel    Tool = "cancel"
	Group     Tool = "errgroup"
	Limited   Tool = "limited errgroup"
	Counter   Tool = "atomic"
	Flag      Tool = "atomic bool"
)

var tools = map[Tool][]Leaf{
	Mutex:     {{Type: "chan struct{}"}},
	RWMutex:   {{Suffix: "gate", Type: "chan struct{}"}, {Suffix: "readers", Type: "chan int"}, {Suffix: "empty", Type: "chan struct{}"}},
	WaitGroup: {{Suffix: "count", Type: "chan int"}, {Suffix: "zero", Type: "chan struct{}"}},
	Once:      {{Type: "chan bool"}},
	Cond:      {{Suffix: "lock", Type: "chan struct{}"}, {Suffix: "waiters", Type: "chan chan struct{}"}},
	Timer:     {{Suffix: "c", Type: "chan struct{}"}, {Suffix: "stop", Type: "chan struct{}"}},
	Context:   {{Suffix: "done", Type: "chan struct{}"}, {Suffix: "err", Type: "chan int"}},
	Cancel:    {{Suffix: "done", Type: "chan struct{}"}, {Suffix: "err", Type: "chan int"}},
	Group: {{Suffix: "count", Type: "chan int"}, {Suffix: "zero", Type: "chan struct{}"}, {Suffix: "first", Type: "chan int"},
		{Suffix: "done", Type: "chan struct{}"}, {Suffix: "err", Type: "chan int"}},
	Limited: {{Suffix: "count", Type: "chan int"}, {Suffix: "zero", Type: "chan struct{}"}, {Suffix: "first", Type: "chan int"},
		{Suffix: "done", Type: "chan struct{}"}, {Suffix: "err", Type: "chan int"}, {Suffix: "room", Type: "chan chan struct{}"}},
	Counter: {{Type: "chan int"}},
	Flag:    {{Type: "chan bool"}},
}

func (s Tool) leaves() []Leaf {
	found := append([]Leaf(nil), tools[s]...)
	for at := range found {
		found[at].Fixed = true
	}
	return found
}

func (s Tool) key() string { return string(s) }

// Handle is a variable that may stand for one tool and then for another: a pointer to it, or a context.
type Handle struct{ Tool Tool }

func (s Handle) leaves() []Leaf { return append([]Leaf(nil), tools[s.Tool]...) }
func (s Handle) key() string    { return "*" + string(s.Tool) }

// isTool is the tool that a shape is, or to which it leads.
func isTool(shape Shape) (Tool, bool) {
	switch it := shape.(type) {
	case Tool:
		return it, true
	case Handle:
		return it.Tool, true
	}
	return "", false
}

// Func is a function value: which function it is, the shape of its receiver, if it is a method of one, and the shapes of what it holds.
type Func struct {
	Body     *body
	Receiver Shape
	Held     []Shape
}

func (s Func) leaves() []Leaf {
	var found []Leaf
	if s.Receiver != nil {
		for _, leaf := range s.Receiver.leaves() {
			leaf.Suffix = join("of", leaf.Suffix)
			found = append(found, leaf)
		}
	}
	for at, held := range s.Held {
		for _, leaf := range held.leaves() {
			leaf.Suffix = join(s.Body.held[at].Name(), leaf.Suffix)
			found = append(found, leaf)
		}
	}
	return found
}

func (s Func) key() string {
	var keys []string
	if s.Receiver != nil {
		keys = append(keys, s.Receiver.key())
	}
	for _, held := range s.Held {
		keys = append(keys, held.key())
	}
	return fmt.Sprintf("func %d(%s)", s.Body.number, strings.Join(keys, ","))
}

// Nothing is the shape of `nil` before its type is known.
type Nothing struct{}

func (s Nothing) leaves() []Leaf { return nil }
func (s Nothing) key() string    { return "nil" }

func join(a, b string) string {
	if a == "" || b == "" {
		return a + b
	}
	return a + "_" + b
}

// carried is the type in which a value goes over a channel: its own where it has one leaf, else that of a packet.
func carried(s Shape) string {
	leaves := s.leaves()
	switch len(leaves) {
	case 0:
		return "struct{}"
	case 1:
		return leaves[0].Type
	}
	return "chan " + packed(leaves)
}

// packed is the type of what a packet has in its buffer: a type into which each leaf can be put, by channels around it.
func packed(leaves []Leaf) string {
	deepest := 0
	for _, leaf := range leaves {
		if depth := strings.Count(leaf.Type, "chan "); depth > deepest {
			deepest = depth
		}
	}
	return strings.Repeat("chan ", deepest) + "int"
}

// isPackable says whether all leaves are numbers, truth values, or channels that lead to numbers.
func isPackable(leaves []Leaf) bool {
	for _, leaf := range leaves {
		base := strings.ReplaceAll(leaf.Type, "chan ", "")
		if base != "int" && leaf.Type != "bool" {
			return false
		}
	}
	return true
}
