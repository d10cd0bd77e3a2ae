package translate

import (
	"go/ast"
	"go/constant"
	"go/types"
	"strconv"
	"strings"
	"time"
)

// An item is a part of a printed line: a text that is known, or a value.
type item struct {
	text     string
	value    *Value
	isQuoted bool // whether a text stands in quotes, as %q writes it
	wraps    bool // whether an error is wrapped, as %w says
}

// A print is a line with parts that are not known before: a function of its own finds texts by their numbers, and slices by their lengths.
type print struct {
	name  string
	items []item
	node  ast.Node
}

// print writes the values of Println: with a blank between any two.
func (f *function) print(it *ast.CallExpr, args []ast.Expr) {
	if len(args) == 1 {
		if call, ok := unparen(args[0]).(*ast.CallExpr); ok && f.nameOfPackageCall(call) == "fmt.Sprintf" {
			f.format(it, call.Args)
			return
		}
	}
	f.carry(it, "printing", "a line of println, with its values")
	f.writeLines(it, f.items(args, ""))
}

// writeLines writes groups of parts, between any two of which there is a blank.
func (f *function) writeLines(it *ast.CallExpr, groups [][]item) {
	for at, group := range groups {
		if len(group) > 1 {
			groups[at] = f.spacedOrTold(it, group)
		}
	}
	for _, line := range lines(groups) {
		f.line(it, line)
	}
}

func (f *function) spacedOrTold(node ast.Node, group []item) []item {
	found, isExact := spaced(group)
	if !isExact {
		f.change(node, "printing", "println sets its values apart by blanks")
	}
	return found
}

// items are the parts that values are printed as, a list for each. The verbs are those of a format, one for each value; without a
// format all are as by %v.
func (f *function) items(args []ast.Expr, verbs string) [][]item {
	var groups [][]slot
	for at, e := range args {
		groups = append(groups, f.slots(e, verbAt(verbs, at)))
	}
	return f.filledSlots(groups)
}

func isTextConstant(known types.TypeAndValue) bool {
	return known.Value != nil && known.Value.Kind() == constant.String
}

func textOf(known types.TypeAndValue) string { return constant.StringVal(known.Value) }

func quotedBy(verb byte, text string) string {
	if verb == 'q' {
		return strconv.Quote(text)
	}
	return text
}

func verbAt(verbs string, at int) byte {
	if at < len(verbs) {
		return verbs[at]
	}
	return 'v'
}

// itemsOfAll are the parts of all results of a call.
func (f *function) itemsOfAll(call ast.Expr, values []Value) [][]item {
	var found [][]item
	results, _ := f.typeOf(call).(*types.Tuple)
	for at, value := range values {
		found = append(found, f.parts(call, value, results.At(at).Type(), 'v', 0))
	}
	return found
}

func (f *function) itemsOf(e ast.Expr, value Value, verb byte) []item {
	t := f.typeOf(e)
	if verb == 'f' && !f.isSeconds(e) {
		f.refuse(e, "printing", "this verb of a format is not carried", "use %d, %v, %s, %q or %t")
	}
	if text, ok := value.Shape.(Num); ok && text.Text != Plain {
		return []item{{value: &value, isQuoted: verb == 'q', wraps: verb == 'w'}}
	}
	if fullName(t) == "time.Duration" {
		if known := f.src.Info.Types[e].Value; known != nil {
			n, _ := constant.Int64Val(known)
			return []item{{text: time.Duration(n).String()}}
		}
		f.change(e, "printing", "a length of time is printed as its nanoseconds")
	}
	return f.parts(e, value, t, verb, 0)
}

// lines are the lines that texts with line breaks are printed on.
func lines(groups [][]item) [][]item {
	found := [][]item{nil}
	for _, group := range groups {
		for _, it := range group {
			texts := []string{it.text}
			if it.value == nil {
				texts = strings.Split(it.text, "\n")
			}
			for at, text := range texts {
				if at > 0 {
					found = append(found, nil)
				}
				if last := &found[len(found)-1]; it.value != nil {
					*last = append(*last, it)
				} else if text != "" || len(texts) == 1 {
					*last = append(*last, item{text: text})
				}
			}
		}
	}
	return found
}

// line writes a line. One with parts that are not known before is a call of a function that finds them.
func (f *function) line(node ast.Node, items []item) {
	var parts, given []string
	dynamic := 0
	for _, it := range items {
		if it.value == nil {
			parts = append(parts, f.quoted(node, it.text))
			continue
		}
		if isText(it.value.Shape) || isGrow(it.value.Shape) {
			dynamic++
		}
		parts, given = append(parts, it.value.Code...), append(given, it.value.Code...)
	}
	if dynamic == 0 {
		f.emit("println(" + strings.Join(parts, ", ") + ")")
		return
	}
	if dynamic > 3 {
		f.refuse(node, "texts", "a line with more than three texts that are not known before is not carried", "print them on lines of their own")
	}
	f.carry(node, "texts", "a text is a number, and is printed as its text")
	name := f.program.name("print_line")
	f.prints = append(f.prints, print{name, items, node})
	f.emit(name + "(" + strings.Join(given, ", ") + ")")
}

func isText(shape Shape) bool {
	text, ok := shape.(Num)
	return ok && text.Text != Plain
}

// quoted is a text as a literal of the language.
func (f *function) quoted(node ast.Node, text string) string {
	code, ok := literal(text)
	if !ok {
		f.refuse(node, "texts", "a text with control characters is not carried", "leave them out")
	}
	return code
}

func literal(text string) (string, bool) {
	var found strings.Builder
	found.WriteByte('"')
	for _, letter := range text {
		switch {
		case letter == '"' || letter == '\\':
			found.WriteString("\\" + string(letter))
		case letter == '\t':
			found.WriteString("\\t")
		case letter < ' ' || letter == 0x7f:
			return "", false
		default:
			found.WriteRune(letter)
		}
	}
	found.WriteByte('"')
	return found.String(), true
}

// format writes the lines of Printf.
func (f *function) format(it *ast.CallExpr, args []ast.Expr) {
	parts := f.filledSlots([][]slot{f.slotsOfFormat(it, args)})
	text := textOf(f.src.Info.Types[args[0]])
	whole := together(parts[0])
	isExact := !hasWidths(text)
	if endsLine(whole) {
		last := &whole[len(whole)-1]
		last.text = strings.TrimSuffix(last.text, "\n")
	} else {
		isExact = false
	}
	var printed [][]item
	for _, line := range lines([][]item{whole}) {
		line, fits := spaced(line)
		printed, isExact = append(printed, line), isExact && fits
	}
	if isExact {
		f.carry(it, "printing", "a line of println, with its values")
	} else {
		f.change(it, "printing", "println sets its values apart by blanks, and each line by itself")
	}
	for _, line := range printed {
		f.line(it, line)
	}
}

func endsLine(parts []item) bool {
	return len(parts) > 0 && parts[len(parts)-1].value == nil && strings.HasSuffix(parts[len(parts)-1].text, "\n")
}

// constantFormat is a format that is known, and has only verbs that are carried.
func (f *function) constantFormat(node ast.Node, e ast.Expr) string {
	known := f.src.Info.Types[e]
	if known.Value == nil {
		f.refuse(node, "printing", "a format that is not constant is not carried", "write the format where it is used")
	}
	f.checkVerbs(node, textOf(known))
	return textOf(known)
}

// hasWidths says whether a verb of a format has more than its letter.
func hasWidths(format string) bool {
	for at := 0; at < len(format); at++ {
		if format[at] == '%' {
			if rest := strings.TrimLeft(format[at+1:], flags); len(rest) < len(format)-at-1 {
				return true
			}
			at++
		}
	}
	return false
}

// checkVerbs refuses verbs that are not carried, whatever values go with them.
func (f *function) checkVerbs(node ast.Node, format string) {
	for _, verb := range verbsOf(format) {
		if !strings.ContainsRune("dvstqw+f", verb) {
			f.refuse(node, "printing", "this verb of a format is not carried", "use %d, %v, %s, %q or %t")
		}
	}
}

// verbsOf are the verbs of a format, a letter for each value.
func verbsOf(format string) string {
	var found strings.Builder
	for at := 0; at < len(format); at++ {
		if format[at] != '%' {
			continue
		}
		rest := strings.TrimLeft(format[at+1:], flags)
		if rest == "" {
			break
		}
		at = len(format) - len(rest)
		if rest[0] != '%' {
			isNamed := rest[0] == 'v' && strings.HasSuffix(format[:at], "+")
			found.WriteByte(map[bool]byte{true: '+', false: rest[0]}[isNamed])
		}
	}
	return found.String()
}

// What may stand between a percent sign and its verb.
const flags = "0123456789-+# ."

// widthOf is how far the letter of a verb stands behind its percent sign.
func (f *function) widthOf(node ast.Node, text string) int {
	verb := strings.TrimLeft(text[1:], flags)
	if verb == "" {
		f.refuse(node, "printing", "the format ends within a verb", "write %% for a percent sign")
	}
	return len(text) - len(verb)
}

// spaced are the parts of a line as println writes them, with a blank between any two, and whether that is what they are.
func spaced(line []item) ([]item, bool) {
	if len(line) > 1 {
		line = together(line)
	}
	var found []item
	isExact := true
	for at, part := range line {
		isAfterValue, isBeforeValue := at > 0 && line[at-1].value != nil, at+1 < len(line) && line[at+1].value != nil
		if part.value != nil {
			isExact = isExact && !isAfterValue
			found = append(found, part)
			continue
		}
		isOne := isAfterValue && isBeforeValue && part.text == " "
		if isAfterValue {
			isExact = isExact && strings.HasPrefix(part.text, " ")
			part.text = strings.TrimPrefix(part.text, " ")
		}
		if isBeforeValue && !isOne {
			isExact = isExact && strings.HasSuffix(part.text, " ")
			part.text = strings.TrimSuffix(part.text, " ")
		}
		if part.text != "" || len(line) == 1 {
			found = append(found, part)
		}
	}
	return found, isExact
}
