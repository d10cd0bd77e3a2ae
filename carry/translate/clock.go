package translate

import (
	"go/ast"
	"go/token"
)

// How many nanoseconds the units of the methods of a length of time have.
var unitsOfTime = map[string]int{"Nanoseconds": 1, "Microseconds": 1_000, "Milliseconds": 1_000_000, "Seconds": 1_000_000_000}

// lengthOfTime is a method of a length of time: the whole number of a unit, or a whole number of another length.
func (f *function) lengthOfTime(it *ast.CallExpr, selector *ast.SelectorExpr) Value {
	values := f.all(append([]ast.Expr{selector.X}, it.Args...))
	value, name := values[0], selector.Sel.Name
	if unit := unitsOfTime[name]; unit > 0 {
		if value.Number != nil && *value.Number%unit != 0 {
			f.refuse(it, "time", "a length of time that is no whole number of "+name+" is not carried", "write the number")
		}
		f.change(it, "time", "a length of time is a whole number")
		return f.joined(token.QUO, Num{}, value, number(unit))
	}
	if name != "Round" && name != "Truncate" {
		f.refuse(it, "time", name+" is not carried", "print the length of time itself")
	}
	if value.Acts || values[1].Number == nil || *values[1].Number < 1 {
		f.refuse(it, "time", name+" is carried of a variable and to a constant length alone", "put the length of time into a variable")
	}
	unit := values[1]
	if name == "Round" {
		value = f.joined(token.ADD, Num{}, value, number(*unit.Number/2))
	}
	return f.joined(token.MUL, Num{}, f.joined(token.QUO, Num{}, value, unit), unit)
}

// isSeconds says whether an expression is the seconds of a length of time.
func (f *facts) isSeconds(e ast.Expr) bool {
	call, ok := unparen(e).(*ast.CallExpr)
	if !ok {
		return false
	}
	selector, ok := call.Fun.(*ast.SelectorExpr)
	return ok && selector.Sel.Name == "Seconds" && fullName(f.typeOf(selector.X)) == "time.Duration"
}

// moment is a method of a moment: a moment, the length of time between two, or which of two comes first.
func (f *function) moment(it *ast.CallExpr, name string) Value {
	values := f.all(it.Args)
	switch name {
	case "Sub":
		f.change(it, "time", noClock)
		return number(0)
	case "Add":
		f.change(it, "time", noClock)
		return Value{Shape: Unit{}, Binds: atom}
	case "Before", "After":
		f.change(it, "time", "there is no clock: which of two moments comes first is a choice of whoever takes the step")
		return Value{Shape: Truth{}, Code: []string{f.helper("choose:2") + "() == 1"}, Binds: precedence[token.EQL], Acts: true}
	}
	f.refuse(it, "time", name+" of a moment is not carried", "count steps in place of time")
	return values[0]
}
