package translate

import (
	"go/ast"
	"strings"
)

// panics calls a function that stops the program, and is named after the text.
func (f *function) panics(it *ast.CallExpr) {
	text, values := "panic", it.Args
	if made := f.textCall(it.Args[0]); made != nil {
		values = made.Args
	}
	if value := f.src.Info.Types[values[0]]; value.Value != nil {
		text, values = strings.Trim(value.Value.ExactString(), `"`), values[1:]
	}
	f.drop(f.all(values))
	f.change(it, "panic", "a panic is a fault: a call of a function named after it closes a nil channel, behind what is deferred")
	f.panicsInLoop = f.panicsInLoop || f.isInLoop()
	f.runDeferred()
	f.unwindOn()
	f.emit(f.fault(strings.TrimSuffix("panic_"+words(text), "_")) + "()")
}

// textCall is the call that an argument is, if it makes a text or an error of values by a constant format.
func (f *function) textCall(e ast.Expr) *ast.CallExpr {
	call, ok := unparen(e).(*ast.CallExpr)
	if !ok {
		return nil
	}
	selector, ok := call.Fun.(*ast.SelectorExpr)
	if !ok || f.src.Info.Uses[selector.Sel] == nil {
		return nil
	}
	object := f.src.Info.Uses[selector.Sel]
	switch object.Name() {
	case "Sprintf", "Sprint", "Errorf", "New":
		if pkg := object.Pkg(); pkg != nil && (pkg.Path() == "fmt" || pkg.Path() == "errors") {
			return call
		}
	}
	return nil
}

// words makes a name of a text.
func words(text string) string {
	fields := strings.FieldsFunc(strings.ToLower(text), func(r rune) bool { return r < '0' || r > '9' && r < 'a' || r > 'z' })
	if len(fields) > 6 {
		fields = fields[:6]
	}
	return strings.Join(fields, "_")
}
