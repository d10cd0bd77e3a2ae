package translate

import (
	"go/ast"
	"go/token"
	"strings"
)

// switches is a switch as a chain of ifs. Where a `break` leaves it, it stands in a loop of one turn.
func (f *function) switches(it *ast.SwitchStmt, label string) {
	if it.Init != nil {
		f.carryOver(it.Init, "")
	}
	tag := single(Truth{}, "true", false)
	if it.Tag != nil {
		tag = f.value(it.Tag)
		if tag.Acts || !isName(tag.Code) {
			tag = f.spill(tag, "tag")
		}
	}
	f.carry(it, "switch", "a switch is a chain of ifs")
	breaks := leavesSwitch(it.Body)
	if breaks {
		if label == "" {
			label = f.name("switched")
		}
		f.label(f.labelOf(label) + ":")
		f.open("for {")
		f.breaks = append(f.breaks, target{label: label, out: f.labelOf(label), isSwitch: true})
	}
	f.cases(it, tag)
	if breaks {
		f.breaks = f.breaks[:len(f.breaks)-1]
		f.emit("break " + f.labelOf(label))
		f.close()
	}
}

func isName(codes []string) bool {
	for _, code := range codes {
		if strings.ContainsAny(code, " (<") {
			return false
		}
	}
	return true
}

// leavesSwitch says whether a `break` without a label leaves a switch.
func leavesSwitch(node ast.Node) bool {
	found := false
	ast.Inspect(node, func(it ast.Node) bool {
		switch stmt := it.(type) {
		case *ast.ForStmt, *ast.RangeStmt, *ast.SelectStmt, *ast.FuncLit, *ast.SwitchStmt:
			return false
		case *ast.BranchStmt:
			found = found || stmt.Tok == token.BREAK && stmt.Label == nil
		}
		return true
	})
	return found
}

func (f *function) cases(it *ast.SwitchStmt, tag Value) {
	var last *ast.CaseClause
	opened := 0
	for _, stmt := range it.Body.List {
		one := stmt.(*ast.CaseClause)
		if one.List == nil {
			last = one
			continue
		}
		f.at = one.Pos()
		before := len(f.instance.pieces)
		condition := f.condition(it, one, tag)
		late := f.moved(before)
		switch {
		case opened == 0:
			f.again(late)
			f.open("if " + condition + " {")
			opened = 1
		case len(late) > 0:
			f.turn("} else {")
			f.again(late)
			f.open("if " + condition + " {")
			opened++
		default:
			f.turn("} else if " + condition + " {")
		}
		f.caseBody(it, one)
	}
	if last != nil {
		opened = f.defaultCase(it, last, opened)
	}
	f.at = it.Body.Rbrace
	for ; opened > 0; opened-- {
		f.close()
	}
}

// defaultCase writes the default, and gives the number of blocks that are open then.
func (f *function) defaultCase(it *ast.SwitchStmt, last *ast.CaseClause, opened int) int {
	f.at = last.Pos()
	if opened == 0 {
		f.open("{")
		opened = 1
	} else {
		f.turn("} else {")
	}
	f.caseBody(it, last)
	return opened
}

// caseBody writes the statements of a case. Where it falls through, those of the next one stand behind them.
func (f *function) caseBody(it *ast.SwitchStmt, one *ast.CaseClause) {
	last := len(one.Body) - 1
	jump, ok := (*ast.BranchStmt)(nil), false
	if last >= 0 {
		jump, ok = one.Body[last].(*ast.BranchStmt)
	}
	if !ok || jump.Tok != token.FALLTHROUGH {
		f.block(one.Body)
		return
	}
	f.open("{")
	f.block(one.Body[:last])
	f.close()
	for at, stmt := range it.Body.List {
		if stmt == one {
			f.caseBody(it, it.Body.List[at+1].(*ast.CaseClause))
		}
	}
}

func (f *function) condition(it *ast.SwitchStmt, one *ast.CaseClause, tag Value) string {
	var parts []string
	for _, e := range one.List {
		value := f.value(e)
		if it.Tag != nil {
			value = f.compared(&ast.BinaryExpr{X: it.Tag, Op: token.EQL, OpPos: e.Pos(), Y: e}, tag, value)
		}
		parts = append(parts, value.within(precedence[token.LOR]))
	}
	return strings.Join(parts, " || ")
}
