package translate

import (
	"go/ast"
	"go/token"
	"go/types"
	"strings"
)

// packet puts a value into a channel of its own, where it has several leaves; else it is the value itself.
func (f *function) packet(value Value) string {
	leaves := value.Shape.leaves()
	switch len(leaves) {
	case 0:
		return "struct{}{}"
	case 1:
		return value.one()
	}
	t := packed(leaves)
	packet := f.temporary("packet")
	f.emit(packet + " := make(chan " + t + ", " + itoa(len(leaves)) + ")")
	for at, leaf := range leaves {
		f.emit(packet + " <- " + f.wrapped(value.Code[at], leaf.Type, t))
	}
	return packet
}

// wrapped puts a leaf into as many channels as the type asks for.
func (f *function) wrapped(code, from, to string) string {
	if from == "bool" {
		code, from = f.helper("number")+"("+code+")", "int"
	}
	for depth := strings.Count(to, "chan ") - strings.Count(from, "chan "); depth > 0; depth-- {
		code, from = f.cell(from)+"("+code+")", "chan "+from
	}
	return code
}

// unpacked takes a value out of its packet. That of a closed channel is nil, and then the value is zero.
func (f *function) unpacked(packet string, shape Shape) Value {
	leaves := shape.leaves()
	t := packed(leaves)
	found := Value{Shape: shape, Binds: atom}
	var zeros []string
	for _, leaf := range leaves {
		name := f.temporary(join("got", leaf.Suffix))
		found.Code, zeros = append(found.Code, name), append(zeros, f.typedZero(leaf.Type))
	}
	f.emit(commas(found.Code) + " := " + commas(zeros))
	f.open("if " + packet + " != nil {")
	for at, leaf := range leaves {
		f.emit(found.Code[at] + " = " + f.unwrapped("<-"+packet, leaf.Type, t))
	}
	f.close()
	return found
}

// typedZero is the zero value of a type where a definition takes its type from it.
func (f *function) typedZero(t string) string {
	if strings.HasPrefix(t, "chan ") {
		return f.helper("nil:"+t) + "()"
	}
	return zeroOf(t)
}

func (f *function) unwrapped(code, from, to string) string {
	isTruth := from == "bool"
	if isTruth {
		from = "int"
	}
	for depth := strings.Count(to, "chan ") - strings.Count(from, "chan "); depth > 0; depth-- {
		code = "<-" + code
	}
	if isTruth {
		return code + " == 1"
	}
	return code
}

// receive is a receive, with the truth value whether the channel was open where that is asked for.
func (f *function) receive(channel ast.Expr, asks bool) (Value, string) {
	from := f.value(channel)
	shape, ok := from.Shape.(Chan)
	if !ok {
		f.refuse(channel, "channels", "this receive is not carried", "")
	}
	code := "<-" + from.within(unary)
	if !asks && len(shape.Elem.leaves()) <= 1 {
		return f.received(shape, code), ""
	}
	f.moves(shape.Elem)
	name, open := f.temporary("got"), ""
	if asks {
		open = f.temporary("open")
		f.emit(name + ", " + open + " := " + code)
	} else {
		f.emit(name + " := " + code)
	}
	return f.taken(shape, name), open
}

// received is a receive as an expression.
func (f *function) received(shape Chan, code string) Value {
	f.moves(shape.Elem)
	found := Value{Shape: shape.Elem, Code: []string{code}, Binds: unary, Acts: true}
	if len(shape.Elem.leaves()) == 0 {
		f.emit(code)
		found.Code, found.Acts = nil, false
	}
	return found
}

// taken is what came over a channel and lies in a variable.
func (f *function) taken(shape Chan, name string) Value {
	switch len(shape.Elem.leaves()) {
	case 0:
		return Value{Shape: shape.Elem, Binds: atom}
	case 1:
		return single(shape.Elem, name, false)
	}
	return f.unpacked(name, shape.Elem)
}

func (f *function) send(it *ast.SendStmt) {
	sides := f.all([]ast.Expr{it.Chan, it.Value})
	shape, ok := sides[0].Shape.(Chan)
	if !ok {
		f.refuse(it, "channels", "this send is not carried", "")
	}
	to := sides[0].within(unary)
	value := f.fit(sides[1], shape.Elem, it)
	f.moves(shape.Elem)
	f.emit(to + " <- " + f.packet(value))
}

// A case of a select that is ready to be written: its head, and what its body begins with, or nil.
type ready struct {
	head  string
	begin func()
	moves Shape // what goes over the channel, or nil
}

// readied finds what a case of a select works on.
func (f *function) readied(comm *ast.CommClause) ready {
	switch stmt := comm.Comm.(type) {
	case *ast.SendStmt:
		sides := f.all([]ast.Expr{stmt.Chan, stmt.Value})
		value := f.fit(sides[1], sides[0].Shape.(Chan).Elem, stmt)
		return ready{head: "case " + f.steady(sides[0]) + " <- " + f.packet(value) + ":", moves: value.Shape}
	case *ast.ExprStmt:
		channel := f.value(unparen(stmt.X).(*ast.UnaryExpr).X)
		return ready{head: "case <-" + f.steady(channel) + ":", moves: channel.Shape.(Chan).Elem}
	case *ast.AssignStmt:
		channel := f.value(unparen(stmt.Rhs[0]).(*ast.UnaryExpr).X)
		head, begin := f.clauseOf(stmt, channel)
		return ready{head, begin, channel.Shape.(Chan).Elem}
	}
	return ready{head: "default:"}
}

// selects translates a select. What its cases work on is found before it, in their order.
func (f *function) selects(it *ast.SelectStmt, label string) {
	var cases []ready
	f.at = it.Pos()
	for _, clause := range it.Body.List {
		cases = append(cases, f.readied(clause.(*ast.CommClause)))
	}
	f.labelled(label)
	f.open("select {")
	f.breaks = append(f.breaks, target{label: label, out: f.labelOf(label)})
	for at, clause := range it.Body.List {
		comm := clause.(*ast.CommClause)
		f.at = comm.Pos()
		f.handed = ""
		if moves := cases[at].moves; moves != nil {
			f.moves(moves)
		}
		f.label(cases[at].head)
		if cases[at].begin != nil {
			f.attempt(comm, cases[at].begin)
		}
		f.block(comm.Body)
	}
	f.breaks = f.breaks[:len(f.breaks)-1]
	f.at = it.Body.Rbrace
	f.close()
}

// steady is a channel as an operand of a case; one that is made or found by a call is kept in a variable before the select.
func (f *function) steady(channel Value) string {
	if channel.Acts {
		channel = f.spill(channel, "channel")
	}
	return channel.within(unary)
}

// clauseOf is the head of a case that receives into variables, and what its body begins with.
func (f *function) clauseOf(stmt *ast.AssignStmt, channel Value) (string, func()) {
	shape := channel.Shape.(Chan)
	operand := f.steady(channel)
	name, open := f.temporary("got"), ""
	names := name
	if len(stmt.Lhs) > 1 {
		open = f.temporary("open")
		names += ", " + open
	}
	begin := func() {
		f.assignAll(stmt, stmt.Lhs[:1], []Value{f.taken(shape, name)})
		if open != "" {
			f.assignAll(stmt, stmt.Lhs[1:], []Value{single(Truth{}, open, false)})
		}
	}
	// A plain name takes what was received itself.
	if known, ok := stmt.Lhs[0].(*ast.Ident); ok && len(shape.Elem.leaves()) == 1 && f.isDefine(known, stmt.Tok) && known.Name != "_" {
		object := f.src.Info.Defs[known]
		if !f.isShared(object, f.options.SharesLoops) {
			delete(f.names, name)
			own := f.name(known.Name)
			f.showAs([]string{own}, shape.Elem)
			f.bound[object] = &binding{shape: shape.Elem, names: []string{own}}
			names = own + strings.TrimPrefix(names, name)
			begin = func() {
				if open != "" {
					f.assignAll(stmt, stmt.Lhs[1:], []Value{single(Truth{}, open, false)})
				}
			}
		}
	}
	return "case " + names + " := <-" + operand + ":", begin
}

// receiveTwo is `v, ok := <-c`. New names that are not shared take both themselves.
func (f *function) receiveTwo(it *ast.AssignStmt, arrow *ast.UnaryExpr) {
	names := f.newNames(it)
	if channel, ok := under(f.typeOf(arrow.X)).(*types.Chan); ok && names != nil {
		if shape := f.shapeOf(channel.Elem(), it); len(shape.leaves()) == 1 {
			from := f.value(arrow.X)
			f.moves(shape)
			var own []string
			for at, object := range names {
				known := &binding{shape: []Shape{shape, Truth{}}[at], names: []string{f.name(object.Name())}}
				f.showAs(known.names, known.shape)
				f.bound[object], own = known, append(own, known.names...)
			}
			f.emit(commas(own) + " := <-" + from.within(unary))
			return
		}
	}
	value, open := f.receive(arrow.X, true)
	f.assignAll(it, it.Lhs, []Value{value, single(Truth{}, open, false)})
}

// newNames are the variables that a definition declares, if all its names are new and none is shared.
func (f *function) newNames(it *ast.AssignStmt) []types.Object {
	var found []types.Object
	for _, e := range it.Lhs {
		name, ok := e.(*ast.Ident)
		if !ok || it.Tok != token.DEFINE || f.src.Info.Defs[name] == nil || f.isShared(f.src.Info.Defs[name], f.options.SharesLoops) {
			return nil
		}
		found = append(found, f.src.Info.Defs[name])
	}
	return found
}
