package translate

import (
	"go/ast"
	"go/token"
	"strings"
)

// moved takes away the pieces that were written since a place, and gives them.
func (f *function) moved(before int) []piece {
	late := append([]piece(nil), f.instance.pieces[before:]...)
	f.instance.pieces = f.instance.pieces[:before]
	return late
}

func (f *function) again(pieces []piece) {
	f.instance.pieces = append(f.instance.pieces, pieces...)
}

func (f *function) ifs(it *ast.IfStmt) {
	f.ifWith(it, "if ")
}

// ifWith writes an `if`, or the rest of one. Statements that a condition needs stand before it.
func (f *function) ifWith(it *ast.IfStmt, word string) {
	before := len(f.instance.pieces)
	if it.Init != nil {
		f.carryOver(it.Init, "")
	}
	condition := f.value(it.Cond).one()
	late := f.moved(before)
	nested := word != "if " && len(late) > 0
	if nested {
		f.turn("} else {")
	}
	f.again(late)
	if word == "if " || nested {
		f.open("if " + condition + " {")
	} else {
		f.turn("} else if " + condition + " {")
	}
	f.block(it.Body.List)
	f.at = it.Body.Rbrace
	switch other := it.Else.(type) {
	case *ast.IfStmt:
		f.ifWith(other, "else if ")
	case *ast.BlockStmt:
		f.turn("} else {")
		f.block(other.List)
		f.at = other.Rbrace
		f.close()
	default:
		f.close()
	}
	if nested {
		f.close()
	}
}

// labelled writes a label of the source, if there is one.
func (f *function) labelled(label string) {
	if label != "" {
		f.label(f.labelOf(label) + ":")
	}
}

func (f *function) labelOf(label string) string { return plain(label) }

// loopLabel writes the label of a loop. One that has none gets one, which is dropped where no jump names it.
func (f *function) loopLabel(label string) string {
	if label == "" {
		f.loops++
		label = "loop_" + itoa(f.loops)
	}
	f.labelled(label)
	return label
}

func (f *function) loop(it *ast.ForStmt, label string) {
	if x := f.src.Counted[it]; x != nil {
		f.told.Add(f.src.Fset.Position(it.Pos()), "carried", "range-number", "a loop over a number is a loop with three parts", "")
	}
	init := f.header(it.Init)
	label = f.loopLabel(label)
	before := len(f.instance.pieces)
	condition := ""
	if it.Cond != nil {
		condition = f.value(it.Cond).one()
	}
	late := f.moved(before)
	post := ""
	if it.Post != nil {
		f.carryOver(it.Post, "")
		steps := f.moved(before)
		if len(steps) != 1 {
			f.refuse(it.Post, "loops", "this third part of a loop is not carried", "write it at the end of the loop")
		}
		post = steps[0].text
	}
	switch {
	case len(late) > 0:
		f.open("for " + init + "; ; " + post + " {")
		f.again(late)
		f.open("if !(" + condition + ") {")
		f.emit("break")
		f.close()
	case init == "" && post == "" && condition == "":
		f.open("for {")
	case init == "" && post == "":
		f.open("for " + condition + " {")
	default:
		f.open("for " + init + "; " + condition + "; " + post + " {")
	}
	f.body(it.Body, label)
}

// header is the first part of a loop as one statement; what is more stands before the loop.
func (f *function) header(stmt ast.Stmt) string {
	if stmt == nil {
		return ""
	}
	before := len(f.instance.pieces)
	f.carryOver(stmt, "")
	steps := f.moved(before)
	if len(steps) == 1 && !strings.HasPrefix(steps[0].text, "var ") {
		return steps[0].text
	}
	f.again(steps)
	return ""
}

func (f *function) body(it *ast.BlockStmt, label string) {
	f.breaks = append(f.breaks, target{label: label, out: f.labelOf(label), isLoop: true})
	f.block(it.List)
	f.breaks = f.breaks[:len(f.breaks)-1]
	f.at = it.Rbrace
	f.close()
}

// ranges is a loop over a channel, an array or a slice.
func (f *function) ranges(it *ast.RangeStmt, label string) {
	if f.isMap(it.X) {
		f.rangeMap(it, label)
		return
	}
	if f.hasPlace(it.X) {
		where := f.start(it.X)
		if _, ok := where.shape.(Ref); ok {
			where = f.pointee(f.read(where))
		}
		if grow, ok := where.shape.(Grow); ok {
			f.rangeGrown(it, label, grow, where)
			return
		}
		if list, ok := where.shape.(List); ok && it.Value == nil {
			f.rangeOver(it, label, list, where, itoa(list.Len))
			return
		}
	}
	f.rangeValue(it, label, f.value(it.X))
}

// rangeValue is a loop over what is found before it.
func (f *function) rangeValue(it *ast.RangeStmt, label string, over Value) {
	if channel, ok := over.Shape.(Chan); ok {
		f.rangeChannel(it, label, channel, over)
		return
	}
	if grow, ok := over.Shape.(Grow); ok {
		if over.Acts {
			over = f.spill(over, "slice")
		}
		f.rangeGrown(it, label, grow, place{shape: grow, code: over.Code, cells: make([]bool, len(over.Code))})
		return
	}
	isRef := false
	if ref, ok := over.Shape.(Ref); ok {
		isRef = true
		over = Value{Shape: ref.Of, Code: over.Code, Binds: atom}
	}
	list, ok := over.Shape.(List)
	if !ok {
		f.refuse(it, "texts", "a loop over a text is not carried", "hand the text on as a whole")
	}
	cells := make([]bool, len(over.Code))
	if isRef {
		cells = Ref{list}.cells()
	}
	f.rangeOver(it, label, list, place{shape: list, code: over.Code, cells: cells}, itoa(list.Len))
}

func (f *function) rangeChannel(it *ast.RangeStmt, label string, channel Chan, over Value) {
	label = f.loopLabel(label)
	f.moves(channel.Elem)
	code := over.one()
	name, ok := it.Key.(*ast.Ident)
	if it.Key == nil || ok && name.Name == "_" {
		f.open("for range " + code + " {")
		f.body(it.Body, label)
		return
	}
	if ok && it.Tok == token.DEFINE && len(channel.Elem.leaves()) == 1 && !f.isShared(f.src.Info.Defs[name], f.options.SharesLoops) {
		own := f.name(name.Name)
		f.showAs([]string{own}, channel.Elem)
		f.bound[f.src.Info.Defs[name]] = &binding{shape: channel.Elem, names: []string{own}}
		f.open("for " + own + " := range " + code + " {")
		f.body(it.Body, label)
		return
	}
	got := f.temporary("got")
	f.open("for " + got + " := range " + code + " {")
	stmt := &ast.AssignStmt{Lhs: []ast.Expr{it.Key}, Tok: it.Tok, TokPos: it.Pos()}
	f.assignAll(stmt, stmt.Lhs, []Value{f.taken(channel, got)})
	f.body(it.Body, label)
}

// rangeOver is a loop over the elements of a list, up to an end.
func (f *function) rangeOver(it *ast.RangeStmt, label string, list List, over place, end string) {
	index := f.name("at")
	if key, ok := it.Key.(*ast.Ident); ok && key.Name != "_" && it.Tok == token.DEFINE {
		delete(f.names, index)
		index = f.name(key.Name)
	}
	label = f.loopLabel(label)
	f.open("for " + index + " := 0; " + index + " < " + end + "; " + index + "++ {")
	counted := single(Num{}, index, false)
	if key, ok := it.Key.(*ast.Ident); ok && key.Name != "_" {
		stmt := &ast.AssignStmt{Lhs: []ast.Expr{it.Key}, Tok: it.Tok, TokPos: it.Pos()}
		if object := f.src.Info.Defs[key]; object != nil && !f.isShared(object, f.options.SharesLoops) {
			f.bound[object] = &binding{shape: Num{}, names: []string{index}}
			if !f.turning[object] {
				own := f.name(key.Name)
				f.emit(own + " := " + index)
				f.bound[object].names[0] = own
			}
		} else {
			f.assignAll(stmt, stmt.Lhs, []Value{counted})
		}
	}
	if it.Value != nil {
		f.nextElement(it, list, over, counted)
	}
	f.body(it.Body, label)
}

// nextElement gives the second variable of a loop its element.
func (f *function) nextElement(it *ast.RangeStmt, list List, over place, index Value) {
	if name, ok := it.Value.(*ast.Ident); ok && name.Name == "_" || list.Len == 0 {
		return
	}
	found := f.lookedUp(list, over, index, len(list.Elem.leaves()))
	stmt := &ast.AssignStmt{Lhs: []ast.Expr{it.Value}, Tok: it.Tok, TokPos: it.Pos()}
	f.assignAll(stmt, stmt.Lhs, []Value{f.copied(f.read(found), it.Value)})
}

// branch is `break` or `continue`.
func (f *function) branch(it *ast.BranchStmt) {
	if it.Tok != token.BREAK && it.Tok != token.CONTINUE {
		f.refuse(it, "jumps", it.Tok.String()+" is not carried", "write it with loops and ifs")
	}
	if it.Label != nil {
		f.emit(it.Tok.String() + " " + f.labelOf(it.Label.Name))
		return
	}
	for at := len(f.breaks) - 1; at >= 0; at-- {
		to := f.breaks[at]
		if it.Tok == token.CONTINUE && !to.isLoop {
			continue
		}
		if to.isSwitch {
			f.emit("break " + to.out)
			return
		}
		f.emit(f.jump(it.Tok, at))
		return
	}
}

// jump is a jump out of, or on in, a loop or a select; between them there may be loops that stand for switches.
func (f *function) jump(tok token.Token, at int) string {
	for _, inner := range f.breaks[at+1:] {
		if inner.isSwitch && tok == token.CONTINUE {
			return tok.String() + " " + f.breaks[at].out
		}
	}
	return tok.String()
}

// returns finds the results, runs what is deferred, hands on all results but the first, and returns.
func (f *function) returns(it *ast.ReturnStmt) {
	var values []Value
	switch {
	case len(it.Results) > 0:
		values = f.arguments(it.Results)
		for at := range values {
			values[at] = f.fit(values[at], f.instance.results[at], it)
		}
	case len(f.named) > 0:
	default:
		f.runDeferred()
		f.emit("return")
		return
	}
	if len(f.named) > 0 {
		f.toNamed(values, it)
	} else if len(f.deferred) > 0 {
		for at := range values {
			values[at] = f.spill(values[at], "result")
		}
	}
	f.runDeferred()
	if len(f.named) > 0 {
		values = nil
		for _, object := range f.named {
			values = append(values, f.read(f.variable(object, it)))
		}
	}
	f.finish(values)
}

func (f *function) toNamed(values []Value, node ast.Node) {
	if values == nil {
		return
	}
	var places []place
	for _, object := range f.named {
		places = append(places, f.variable(object, node))
	}
	f.storeAll(places, values, node)
}

func (f *function) finish(values []Value) {
	var codes []string
	for _, value := range values {
		codes = append(codes, value.Code...)
	}
	if len(codes) == 0 {
		f.emit("return")
		return
	}
	if len(codes) > 1 {
		first := f.held("result", f.resultLeaves()[0].Type, codes[0])
		for at, out := range f.outs {
			f.emit(out[0] + " <- " + codes[at+1])
		}
		codes[0] = first
	}
	f.emit("return " + codes[0])
}
