package translate

import (
	"fmt"
	"strconv"
	"strings"
)

// mostCases is how many different lines a function that prints may write.
const mostCases = 3000

// A shown part is one of a line that is still to be written: the expressions of its leaves, or a text.
type shown struct {
	item
	codes []string
	depth int // how many texts that are made it lies in
}

// A linePrinter writes a function that prints a line with texts that are found by their numbers, and slices by their lengths.
type linePrinter struct {
	*program
	text    strings.Builder
	cases   int
	deepest int  // how deeply texts that are made may lie in others
	isCut   bool // whether some could lie more deeply
}

// printText is the function that prints a line. Where texts in texts make too many cases, those that lie less deeply are printed alone.
func (p *program) printText(it print) string {
	w := p.linePrinter(it, mostMade)
	for deepest := mostMade - 1; deepest > 0 && w.cases > mostCases; deepest-- {
		w = p.linePrinter(it, deepest)
	}
	if w.cases > mostCases {
		p.leave(it.node, "texts", "a line with so many texts that it may be is not carried", "print its texts on lines of their own")
	} else if w.isCut {
		p.change(it.node, "texts", "a text that lies in "+itoa(w.deepest)+" others stops the program where it is printed")
	}
	return w.text.String()
}

func (p *program) linePrinter(it print, deepest int) *linePrinter {
	w := &linePrinter{program: p, deepest: deepest}
	var params []string
	var parts []shown
	for at, part := range it.items {
		one := shown{item: part}
		if part.value != nil {
			leaves := part.value.Shape.leaves()
			for n, leaf := range leaves {
				name := fmt.Sprintf("part_%d", at)
				if len(leaves) > 1 {
					name += "_" + itoa(n)
				}
				one.codes, params = append(one.codes, name), append(params, name+" "+leaf.Type)
			}
		}
		parts = append(parts, one)
	}
	fmt.Fprintf(&w.text, "func %s(%s) {\n", it.name, strings.Join(params, ", "))
	w.line(parts, nil, "\t")
	w.text.WriteString("}")
	return w
}

// line writes the cases of a line from its first part on of which they are not chosen.
func (w *linePrinter) line(parts []shown, done []string, indent string) {
	for ; len(parts) > 0 && w.cases <= mostCases; parts = parts[1:] {
		part := parts[0]
		switch {
		case part.value == nil:
			code, _ := literal(part.text)
			done = append(done[:len(done):len(done)], code)
		case isText(part.value.Shape):
			w.texts(part, parts[1:], done, indent)
			return
		case isGrow(part.value.Shape):
			w.lengths(part, parts[1:], done, indent)
			return
		default:
			done = append(done[:len(done):len(done)], part.codes...)
		}
	}
	w.cases++
	fmt.Fprintf(&w.text, "%sprintln(%s)\n", indent, strings.Join(done, ", "))
}

// lengths writes a case for each length of a slice.
func (w *linePrinter) lengths(part shown, rest []shown, done []string, indent string) {
	elements := []string{`"["`}
	for n := 0; n <= mostGrown; n++ {
		w.head(n, fmt.Sprintf("%s == %d", part.codes[0], n), indent)
		w.line(rest, append(done[:len(done):len(done)], append(elements[:len(elements):len(elements)], `"]"`)...), indent+"\t")
		if n < mostGrown {
			elements = append(elements, part.codes[n+1])
		}
	}
	fmt.Fprintf(&w.text, "%s}\n", indent)
}

func (w *linePrinter) head(number int, condition, indent string) {
	word := "} else if"
	if number == 0 {
		word = "if"
	}
	fmt.Fprintf(&w.text, "%s%s %s {\n", indent, word, condition)
}

// How deeply texts that are made may lie in others that are printed.
const mostMade = 3

// texts writes a case for each text that a part may be.
func (w *linePrinter) texts(part shown, rest []shown, done []string, indent string) {
	code, kind := part.codes[0], part.value.Shape.(Num).Text
	list := w.program.texts.list
	if kind == Error {
		list = w.errors.list
	}
	for number, one := range list {
		if w.cases > mostCases {
			return
		}
		if part.isQuoted {
			one = strconv.Quote(one)
		}
		text, _ := literal(one)
		w.head(number, fmt.Sprintf("%s == %d", code, number), indent)
		w.line(rest, append(done[:len(done):len(done)], text), indent+"\t")
	}
	isCut := false
	for at, it := range w.forms {
		if it.kind != kind || w.cases > mostCases {
			continue
		}
		if part.depth == w.deepest {
			isCut = true
			continue
		}
		w.head(1, fmt.Sprintf("-%s%%%d == %d", code, formRoom, at+1), indent)
		w.line(append(w.partsOf(it, part, indent+"\t"), rest...), done, indent+"\t")
	}
	if isCut {
		w.isCut = w.isCut || w.deepest < mostMade
		fmt.Fprintf(&w.text, "%s} else {\n%s\t%s()\n", indent, indent, w.fault("text_is_too_long"))
	}
	fmt.Fprintf(&w.text, "%s}\n", indent)
}

// partsOf are the parts of a text of a form. Its values are put into variables.
func (w *linePrinter) partsOf(it *form, part shown, indent string) []shown {
	parts, _ := spaced(it.parts)
	var found []shown
	quote := shown{item: item{text: `"`}}
	if part.isQuoted {
		found = append(found, quote)
	}
	next := 0
	for _, one := range parts {
		lone := shown{item: one, depth: part.depth + 1}
		if one.value != nil {
			name := fmt.Sprintf("%s_%d", part.codes[0], next)
			code := w.valueOf(it, part.codes[0], next)
			if _, ok := one.value.Shape.(Truth); ok {
				code += " == 1"
			}
			fmt.Fprintf(&w.text, "%s%s := %s\n", indent, name, code)
			lone.codes = []string{name}
			next++
		}
		found = append(found, lone)
	}
	if part.isQuoted {
		found = append(found, quote)
	}
	return found
}
