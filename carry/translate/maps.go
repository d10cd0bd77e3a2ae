package translate

import (
	"go/ast"
	"go/types"
	"strings"
)

// mostEntries is how many entries a map may have.
const mostEntries = 1000

const mapRule = "a map is a lock with its keys and its values in channels; one that is written while others use it stops the program"

// Map is a map: a lock, and for each leaf of the keys and of the values a channel in which those of all entries lie. In the lock lies 0,
// or 1 while the map is written. Copies of a map are the same map.
type Map struct{ Key, Elem Shape }

func (s Map) leaves() []Leaf {
	found := []Leaf{{Suffix: "lock", Type: "chan int"}}
	for _, leaf := range s.Key.leaves() {
		found = append(found, Leaf{Suffix: join("keys", leaf.Suffix), Type: "chan " + leaf.Type, Of: inChannel(leaf.Of)})
	}
	for _, leaf := range s.Elem.leaves() {
		found = append(found, Leaf{Suffix: join("values", leaf.Suffix), Type: "chan " + leaf.Type, Of: inChannel(leaf.Of)})
	}
	return found
}

func (s Map) key() string { return "map[" + s.Key.key() + "]" + s.Elem.key() }

func inChannel(shape Shape) Shape {
	if shape == nil {
		return nil
	}
	return Chan{shape}
}

// An entry is a place in a map: the map, and the key.
type entry struct {
	of  Value
	key []string
}

// mapOf is the shape of a map.
func (f *function) mapOf(it *types.Map, node ast.Node) Shape {
	f.change(node, "maps", mapRule)
	shape := Map{f.shapeOf(it.Key(), node), f.shapeOf(it.Elem(), node)}
	switch key := shape.Key.(type) {
	case Num:
		if key.Text == String {
			f.comparisons = append(f.comparisons, node)
		}
	case Truth, Chan:
	case Record:
		for _, field := range key.Fields {
			if field.Shape.key() == "string" {
				f.comparisons = append(f.comparisons, node)
			}
		}
	default:
		f.refuse(node, "maps", "a map with such keys is not carried", "use numbers or texts as keys")
	}
	return shape
}

// isMap says whether an expression is a map.
func (f *facts) isMap(e ast.Expr) bool {
	_, ok := under(f.typeOf(e)).(*types.Map)
	return ok
}

// entryOf is an element of a map as a place.
func (f *function) entryOf(it *ast.IndexExpr) place {
	sides := f.all([]ast.Expr{it.X, it.Index})
	shape := sides[0].Shape.(Map)
	key := f.fit(sides[1], shape.Key, it)
	for at, side := range []*Value{&sides[0], &key} {
		if side.Acts || at == 1 && strings.ContainsAny(strings.Join(side.Code, ""), " (") {
			*side = f.spill(*side, []string{"map", "key"}[at])
		}
	}
	return place{shape: shape.Elem, entry: &entry{sides[0], key.Code}, code: make([]string, len(shape.Elem.leaves())), cells: make([]bool, len(shape.Elem.leaves()))}
}

// look is what a map has for a key, and an expression that says whether the key is there.
func (f *function) look(where place) (Value, string) {
	shape := where.entry.of.Shape.(Map)
	var outs []string
	for _, leaf := range shape.Elem.leaves() {
		out := f.temporary("out")
		f.emit(out + " := make(chan " + leaf.Type + ", 1)")
		outs = append(outs, out)
	}
	found := f.temporary("found")
	f.emit(found + " := " + f.mapHelper("map_look", shape) + "(" + commas(where.entry.of.Code, where.entry.key, outs) + ")")
	value := Value{Shape: shape.Elem, Binds: atom}
	for at, leaf := range shape.Elem.leaves() {
		name := f.temporary(join("value", leaf.Suffix))
		f.emit(name + " := <-" + outs[at])
		value.Code = append(value.Code, name)
	}
	return value, found
}

// readEntry is what a map has for a key, or the zero value.
func (f *function) readEntry(where place) Value {
	shape := where.entry.of.Shape.(Map)
	if len(shape.Elem.leaves()) != 1 {
		value, _ := f.look(where)
		return value
	}
	return single(shape.Elem, f.mapHelper("map_get", shape)+"("+commas(where.entry.of.Code, where.entry.key)+")", true)
}

// storeEntry gives a key of a map a value.
func (f *function) storeEntry(where place, value Value, node ast.Node, isBesideOthers bool) {
	if isBesideOthers {
		f.refuse(node, "maps", "an element of a map that is assigned to beside others is not carried", "assign it by itself")
	}
	shape := where.entry.of.Shape.(Map)
	value = f.fit(value, shape.Elem, node)
	f.emit(f.mapHelper("map_set", shape) + "(" + commas(where.entry.of.Code, where.entry.key, value.Code) + ")")
}

// lookAssigned is `value, ok := m[key]`.
func (f *function) lookAssigned(it *ast.AssignStmt, index *ast.IndexExpr) {
	value, found := f.look(f.entryOf(index))
	f.assignAll(it, it.Lhs, []Value{value, single(Truth{}, found, false)})
}

// growEntry is `m[key] = append(m[key], ..)`.
func (f *function) growEntry(it *ast.AssignStmt, where place, call *ast.CallExpr) {
	shape := where.entry.of.Shape.(Map)
	grow := shape.Elem.(Grow)
	if call.Ellipsis.IsValid() || grow.IsQueue {
		f.refuse(it, "maps", "this append to an element of a map is not carried", "append the elements one by one")
	}
	for _, value := range f.all(call.Args[1:]) {
		value = f.fit(value, grow.Elem, it)
		f.emit(f.mapHelper("map_append", shape) + "(" + commas(where.entry.of.Code, where.entry.key, value.Code) + ")")
	}
}

// deletes is `delete(m, key)`.
func (f *function) deletes(it *ast.CallExpr) {
	where := f.entryOf(&ast.IndexExpr{X: it.Args[0], Index: it.Args[1]})
	f.emit(f.mapHelper("map_delete", where.entry.of.Shape.(Map)) + "(" + commas(where.entry.of.Code, where.entry.key) + ")")
}

// newMap is a map without entries.
func (f *function) newMap(shape Map) Value {
	found := Value{Shape: shape, Binds: atom, Acts: true}
	for at, leaf := range shape.leaves() {
		if at == 0 {
			found.Code = append(found.Code, f.cell("int")+"(0)")
		} else {
			found.Code = append(found.Code, "make("+leaf.Type+", "+itoa(mostEntries)+")")
		}
	}
	return found
}

// mapLiteral is a map with the entries that are written down.
func (f *function) mapLiteral(it *ast.CompositeLit, shape Map) Value {
	found := f.newMap(shape)
	if len(it.Elts) == 0 {
		return found
	}
	var given []ast.Expr
	for _, e := range it.Elts {
		pair := e.(*ast.KeyValueExpr)
		given = append(given, pair.Key, pair.Value)
	}
	values := f.all(given)
	found = f.spill(found, "map")
	for at := 0; at < len(values); at += 2 {
		key := f.fit(values[at], shape.Key, it)
		f.storeEntry(place{shape: shape.Elem, entry: &entry{found, key.Code}}, values[at+1], it, false)
	}
	return found
}

// rangeMap is a loop over the entries that a map has when it begins, and that are still there when they come.
func (f *function) rangeMap(it *ast.RangeStmt, label string) {
	f.change(it, "maps", "a loop over a map begins with an entry by chance, and goes on in the order in which they came into it")
	over := f.value(it.X)
	if over.Acts {
		over = f.spill(over, "map")
	}
	shape := over.Shape.(Map)
	var queues []string
	for _, leaf := range shape.Key.leaves() {
		queue := f.temporary("queue")
		f.emit(queue + " := make(chan " + leaf.Type + ", " + itoa(mostEntries) + ")")
		queues = append(queues, queue)
	}
	f.emit(f.mapHelper("map_keys", shape) + "(" + commas(over.Code, queues) + ")")
	label = f.loopLabel(label)
	key := Value{Shape: shape.Key, Binds: atom}
	for _, leaf := range shape.Key.leaves() {
		key.Code = append(key.Code, f.temporary(join("key", leaf.Suffix)))
	}
	f.open("for " + key.Code[0] + " := range " + queues[0] + " {")
	for at, queue := range queues[1:] {
		f.emit(key.Code[at+1] + " := <-" + queue)
	}
	value, found := f.look(place{shape: shape.Elem, entry: &entry{over, key.Code}})
	f.open("if !" + found + " {")
	f.emit("continue")
	f.close()
	for at, e := range []ast.Expr{it.Key, it.Value} {
		if name, ok := e.(*ast.Ident); e != nil && (!ok || name.Name != "_") {
			stmt := &ast.AssignStmt{Lhs: []ast.Expr{e}, Tok: it.Tok, TokPos: it.Pos()}
			f.assignAll(stmt, stmt.Lhs, []Value{[]Value{key, value}[at]})
		}
	}
	f.body(it.Body, label)
}

// mapHelper is a function that works on maps of a shape.
func (f *function) mapHelper(kind string, shape Map) string {
	zero := f.zero(shape.Elem).Code
	wanted := kind + ":" + commas(typesOf(shape.leaves())) + ":" + commas(zero)
	if _, ok := shape.Elem.(Grow); ok {
		wanted += ":" + shape.Elem.key()
	}
	if name, ok := f.helpers[wanted]; ok {
		return name
	}
	name := f.program.name(kind)
	f.helpers[wanted] = name
	text := mapText{name: name, shape: shape, zero: zero, p: f.program}.text(kind)
	f.texted = append(f.texted, func() string { return text })
	return name
}

func typesOf(leaves []Leaf) []string {
	var found []string
	for _, leaf := range leaves {
		found = append(found, leaf.Type)
	}
	return found
}
