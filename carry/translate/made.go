package translate

import (
	"fmt"
	"go/ast"
	"go/token"
	"go/types"
	"strings"
)

// A form is the form of texts that are made while the program runs: what is known of them, and values that are found then. A text that is
// made is a negative number: the number of its form, and before it the numbers of its values.
type form struct {
	kind  Text
	parts []item   // a value in it has a shape alone
	name  string   // of the function that makes such a text
	known []string // texts of this form that have a number of their own
}

// formRoom is how many forms a program may have, and at what the numbers of the values begin.
const formRoom = 1000

// mostFolded is the number of values that each value of a form may have, by how many the form has.
var mostFolded = []int{1, 4_000_000_000_000_000, 90_000_000, 200_000, 9_000, 1_500, 400}

const madeTexts = "a text that is made is a number with those of its values in it; where they are too large for it, the program stops"

// values are the places of a form's values among its parts.
func (t *form) values() []int {
	var found []int
	for at, part := range t.parts {
		if part.value != nil {
			found = append(found, at)
		}
	}
	return found
}

// key tells forms apart.
func (t *form) key() string {
	found := itoa(int(t.kind))
	for _, part := range t.parts {
		if part.value != nil {
			found += fmt.Sprintf("|%s %t %t", part.value.Shape.key(), part.isQuoted, part.wraps)
		} else {
			found += fmt.Sprintf("|%q", part.text)
		}
	}
	return found
}

// form gives the number of a form, which is above 0.
func (p *program) form(wanted form) int {
	for at, it := range p.forms {
		if it.key() == wanted.key() {
			return at + 1
		}
	}
	p.forms = append(p.forms, &wanted)
	return len(p.forms)
}

// madeOf is a text or an error of parts, of which some are found while the program runs.
func (f *function) madeOf(node ast.Node, kind Text, parts []item) Value {
	parts = together(parts)
	if len(parts) == 0 {
		parts = []item{{}}
	}
	if known := parts[0]; len(parts) == 1 {
		switch {
		case known.value == nil && kind == String:
			return Value{Shape: Num{String}, Code: []string{itoa(f.texts.number(f.plainText(node, known.text)))}, Binds: atom}
		case known.value != nil && known.value.Shape.key() == "string" && kind == String && !known.isQuoted:
			return *known.value
		}
	}
	wanted := form{kind: kind}
	var given []string
	acts := false
	for _, part := range parts {
		if part.value == nil {
			f.plainText(node, part.text)
			wanted.parts = append(wanted.parts, part)
			continue
		}
		switch part.value.Shape.(type) {
		case Num, Truth:
		default:
			f.refuse(node, "made-texts", "a text of this value is not made", "make it of numbers, truth values and texts")
		}
		code := part.value.one()
		if part.value.Shape.key() == "bool" {
			code = f.helper("number") + "(" + code + ")"
		}
		given, acts = append(given, code), acts || part.value.Acts
		wanted.parts = append(wanted.parts, item{value: &Value{Shape: part.value.Shape}, isQuoted: part.isQuoted, wraps: part.wraps})
	}
	if len(given) >= len(mostFolded) {
		f.refuse(node, "made-texts", "a text with more than six values is not made", "make it of fewer")
	}
	f.change(node, "made-texts", madeTexts)
	return single(Num{kind}, f.maker(wanted)+"("+commas(given)+")", true)
}

// plainText is a text, if it has no control characters.
func (f *function) plainText(node ast.Node, text string) string {
	if _, ok := literal(text); !ok {
		f.refuse(node, "texts", "a text with control characters that is handed on is not carried", "leave them out")
	}
	return text
}

// together joins texts that stand side by side.
func together(parts []item) []item {
	var found []item
	for _, part := range parts {
		if last := len(found) - 1; part.value == nil && last >= 0 && found[last].value == nil {
			found[last].text += part.text
		} else if part.value != nil || part.text != "" {
			found = append(found, part)
		}
	}
	return found
}

// maker is the name of the function that makes texts of a form.
func (f *function) maker(wanted form) string {
	number := f.form(wanted)
	it := f.forms[number-1]
	if it.name != "" {
		return it.name
	}
	said := map[Text]string{String: "text", Error: "error"}[it.kind]
	for _, part := range it.parts {
		said += "_" + words(part.text)
	}
	it.name = f.program.name(strings.Trim(said, "_"))
	count := len(it.values())
	most, sum := itoa(mostFolded[count]), ""
	var params []string
	for at := 0; at < count; at++ {
		param := "part_" + itoa(at)
		params = append(params, param+" int")
		folded := f.helper("folded") + "(" + param + ", " + most + ")"
		if sum == "" {
			sum = folded
		} else {
			if strings.Contains(sum, " + ") {
				sum = "(" + sum + ")"
			}
			sum = sum + "*" + most + " + " + folded
		}
	}
	if strings.Contains(sum, " + ") {
		sum = "(" + sum + ")"
	}
	p := f.program
	f.texted = append(f.texted, func() string {
		return fmt.Sprintf("func %s(%s) int {\n%s\treturn -(%s*%d + %d)\n}", it.name, commas(params), p.knownTexts(it), sum, formRoom, number)
	})
	return it.name
}

// valueOf is the expression of a value of a text that was made, by its place among the values of the form.
func (p *program) valueOf(it *form, code string, at int) string {
	count := len(it.values())
	divisor := formRoom
	for n := at + 1; n < count; n++ {
		divisor *= mostFolded[count]
	}
	return fmt.Sprintf("%s(-%s / %d %% %d)", p.helper("unfolded"), code, divisor, mostFolded[count])
}

// A slot is a part of what is printed or made: a text that is known, or an expression with the verb by which it is written.
type slot struct {
	text    string
	e       ast.Expr
	verb    byte
	isInner bool // whether it is a part of a text that is made here
}

// slots are the parts of an expression: of a text that is made here its own.
func (f *function) slots(e ast.Expr, verb byte) []slot {
	known := f.src.Info.Types[e]
	if isTextConstant(known) && f.speakerOf(e, verb) == nil {
		return []slot{{text: quotedBy(verb, textOf(known))}}
	}
	if !isString(known.Type) || verb == 'q' || f.speakerOf(e, verb) != nil {
		return []slot{{e: e, verb: verb}}
	}
	if found, ok := f.slotsOfMaking(e); ok {
		for at := range found {
			found[at].isInner = true
		}
		return found
	}
	return []slot{{e: e, verb: verb}}
}

// slotsOfMaking are the parts of an expression that makes a text, if it does.
func (f *function) slotsOfMaking(e ast.Expr) ([]slot, bool) {
	switch it := unparen(e).(type) {
	case *ast.BinaryExpr:
		if it.Op == token.ADD {
			return append(f.slots(it.X, 'v'), f.slots(it.Y, 'v')...), true
		}
	case *ast.CallExpr:
		switch f.nameOfPackageCall(it) {
		case "fmt.Sprintf":
			return f.slotsOfFormat(it, it.Args), true
		case "fmt.Sprint":
			var found []slot
			for at, e := range it.Args {
				if at > 0 && !isString(f.typeOf(e)) && !isString(f.typeOf(it.Args[at-1])) {
					found = append(found, slot{text: " "})
				}
				found = append(found, f.slots(e, 'v')...)
			}
			return found, true
		case "strconv.Itoa":
			return []slot{{e: it.Args[0], verb: 'd'}}, true
		}
	}
	return nil, false
}

// nameOfPackageCall is the function of a package that a call is of, as fmt.Sprintf; empty where it is none.
func (f *facts) nameOfPackageCall(it *ast.CallExpr) string {
	selector, ok := it.Fun.(*ast.SelectorExpr)
	if !ok {
		return ""
	}
	object, ok := f.src.Info.Uses[selector.Sel].(*types.Func)
	if !ok || object.Pkg() == nil || object.Type().(*types.Signature).Recv() != nil {
		return ""
	}
	return object.Pkg().Path() + "." + object.Name()
}

// slotsOfFormat are the parts that a constant format gives; nil where it does not fit its values.
func (f *function) slotsOfFormat(node ast.Node, args []ast.Expr) []slot {
	format := f.constantFormat(node, args[0])
	verbs := verbsOf(format)
	if len(verbs) != len(args)-1 {
		f.refuse(node, "printing", "the format does not fit the values", "")
	}
	var found []slot
	next := 0
	for len(format) > 0 {
		at := strings.IndexByte(format, '%')
		if at < 0 {
			return append(found, slot{text: format})
		}
		width := f.widthOf(node, format[at:])
		found = append(found, slot{text: format[:at]})
		if format[at+width] == '%' {
			found = append(found, slot{text: "%"})
		} else {
			found = append(found, f.slots(args[1+next], verbs[next])...)
			next++
		}
		format = format[at+width+1:]
	}
	return found
}

// filledSlots gives slots their values: each of them becomes parts.
func (f *function) filledSlots(groups [][]slot) [][]item {
	var dynamic []ast.Expr
	find := f.arguments
	for _, group := range groups {
		for _, it := range group {
			if it.e != nil {
				dynamic = append(dynamic, f.speaking(it.e, f.speakerOf(it.e, it.verb)))
			}
			if it.e != nil && it.isInner {
				find = f.inOrderOfText
			}
		}
	}
	values := find(dynamic)
	if len(values) != len(dynamic) {
		return f.itemsOfAll(dynamic[0], values)
	}
	found := make([][]item, len(groups))
	for at, group := range groups {
		for _, it := range group {
			if it.e == nil {
				found[at] = append(found[at], item{text: it.text})
				continue
			}
			found[at] = append(found[at], f.itemsOf(it.e, values[0], it.verb)...)
			values = values[1:]
		}
	}
	return found
}

// madeText is a text of an expression that joins texts, or that calls what makes one.
func (f *function) madeText(e ast.Expr) Value {
	slots, ok := f.slotsOfMaking(e)
	if !ok {
		f.refuse(e, "made-texts", "this text is not made", "make it with fmt.Sprintf")
	}
	return f.madeOf(e, String, f.filledSlots([][]slot{slots})[0])
}

// makesText is a function of a package that gives a text of its arguments.
func makesText(f *function, it *ast.CallExpr) []Value { return []Value{f.madeText(it)} }

// errorMethod is the method Error of a struct of the program, or of a pointer to one; nil where there is none.
func (f *function) errorMethod(shape Shape) *body {
	if ref, ok := shape.(Ref); ok {
		shape = ref.Of
	}
	record, ok := shape.(Record)
	if !ok || record.Name == "" {
		return nil
	}
	named := f.src.Pkg.Scope().Lookup(record.Name)
	if named == nil {
		return nil
	}
	object, _, _ := types.LookupFieldOrMethod(named.Type(), true, f.src.Pkg, "Error")
	return f.declared[object]
}

// spokenError is a value with a method Error as an error: one with the text that the method gives now.
func (f *function) spokenError(value Value, speaker *body, node ast.Node) Value {
	f.change(node, "errors", "an error of a type of the program is the text that its method Error gives when it becomes an error")
	_, isRef := value.Shape.(Ref)
	if value.Acts {
		value = f.spill(value, "failed")
	}
	if isRef != isPointer(speaker.sign.Recv().Type()) {
		if !isRef {
			f.refuse(node, "errors", "this value is no error", "take its address")
		}
		value = f.read(f.pointee(value))
	}
	text := f.invoke(f.prepare(nil, Value{Shape: Func{Body: speaker}}, &value, nil))[0]
	return f.madeOf(node, Error, []item{{value: &text}})
}

// errorText is the text of an error.
func (f *function) errorText(value Value) Value {
	return single(Num{String}, f.helper("error_text")+"("+value.one()+")", true)
}

// errorTextHelper finds the number of an error's text.
func (p *program) errorTextHelper() string {
	var lines strings.Builder
	for at, text := range p.errors.list[1:] {
		fmt.Fprintf(&lines, "\tif err == %d {\n\t\treturn %d\n\t}\n", at+1, p.texts.number(text))
	}
	for at := 0; at < len(p.forms); at++ {
		if it := p.forms[at]; it.kind == Error {
			like := p.form(form{kind: String, parts: it.parts})
			fmt.Fprintf(&lines, "\tif -err%%%%%d == %d {\n\t\treturn err + %d - %d\n\t}\n", formRoom, at+1, at+1, like)
		}
	}
	return "SELF(err int) int {\n" + lines.String() + "\t" + p.fault("nil_dereference") + "()\n\treturn 0\n}"
}

// errorIsHelper follows the errors that an error wraps.
func (p *program) errorIsHelper() string {
	var lines strings.Builder
	word := "if"
	for at, it := range p.forms {
		for place, n := range it.values() {
			if part := it.parts[n]; it.kind == Error && part.wraps {
				fmt.Fprintf(&lines, "\t\t%s -err%%%d == %d {\n\t\t\terr = %s\n", word, formRoom, at+1, p.valueOf(it, "err", place))
				word = "} else if"
				break
			}
		}
	}
	end := "\t\treturn false\n"
	if lines.Len() > 0 {
		end = "\t\t} else {\n\t\t\treturn false\n\t\t}\n"
	}
	return "SELF(err, wanted int) bool {\n\tfor err != wanted {\n" + lines.String() + end + "\t}\n\treturn true\n}"
}

// wrapsErrors says whether some error of the program wraps another one.
func (f *facts) wrapsErrors() bool {
	found := false
	ast.Inspect(f.src.File, func(node ast.Node) bool {
		if call, ok := node.(*ast.CallExpr); ok && f.nameOfPackageCall(call) == "fmt.Errorf" && len(call.Args) > 0 {
			known := f.src.Info.Types[call.Args[0]]
			found = found || isTextConstant(known) && strings.Contains(verbsOf(textOf(known)), "w")
		}
		return true
	})
	return found
}
