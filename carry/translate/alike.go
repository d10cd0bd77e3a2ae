package translate

import (
	"fmt"
	"regexp"
	"strings"
)

// knownTexts are statements by which a function that makes a text gives the number of a text that is known, where it makes that one.
func (p *program) knownTexts(it *form) string {
	var lines strings.Builder
	for at, text := range p.texts.list {
		if values := it.valuesOf(text); values != nil && len(p.comparisons) > 0 {
			it.known = append(it.known, text)
			fmt.Fprintf(&lines, "\tif %s {\n\t\treturn %d\n\t}\n", strings.Join(values, " && "), at)
		}
	}
	return lines.String()
}

// valuesOf are the conditions under which a text of a form is a text that is known. They are nil where it never is, or where a text is
// among the values.
func (t *form) valuesOf(text string) []string {
	if t.kind != String {
		return nil
	}
	pattern := ""
	for _, part := range t.parts {
		switch {
		case part.value == nil:
			pattern += regexp.QuoteMeta(part.text)
		case part.value.Shape.key() == "int":
			pattern += "(0|-?[1-9][0-9]{0,14})"
		case part.value.Shape.key() == "bool":
			pattern += "(true|false)"
		default:
			return nil
		}
	}
	found := regexp.MustCompile("^(?s:" + pattern + ")$").FindStringSubmatch(text)
	var conditions []string
	for at, value := range found {
		if at > 0 {
			conditions = append(conditions, fmt.Sprintf("part_%d == %s", at-1, strings.NewReplacer("true", "1", "false", "0").Replace(value)))
		}
	}
	return conditions
}

// An automaton takes the texts of a program: a path for each text that is known, and for each form. Where a text has two paths, two
// numbers stand for it, and texts are not compared by their numbers.
type automaton struct {
	edges  [][]edge
	starts []int
	isEnd  map[int]bool
}

// An edge takes one byte of a range.
type edge struct {
	to        int
	low, high byte
}

func (a *automaton) state() int {
	a.edges = append(a.edges, nil)
	return len(a.edges) - 1
}

func (a *automaton) join(from []int, to int, low, high byte) {
	for _, it := range from {
		a.edges[it] = append(a.edges[it], edge{to, low, high})
	}
}

func (a *automaton) literal(from []int, text string) []int {
	for at := 0; at < len(text); at++ {
		next := a.state()
		a.join(from, next, text[at], text[at])
		from = []int{next}
	}
	return from
}

// value takes what a value may be written as.
func (a *automaton) value(from []int, shape Shape) []int {
	if _, ok := shape.(Truth); ok {
		return append(a.literal(from, "true"), a.literal(from, "false")...)
	}
	if isText(shape) {
		any := a.state()
		a.join(append([]int{any}, from...), any, 0, 255)
		return append([]int{any}, from...)
	}
	sign, digits := a.state(), a.state()
	a.join(from, sign, '-', '-')
	a.join(append([]int{sign, digits}, from...), digits, '0', '9')
	return []int{digits}
}

func (a *automaton) add(parts []item) {
	start := a.state()
	a.starts = append(a.starts, start)
	ends := []int{start}
	for _, part := range parts {
		if part.value == nil {
			ends = a.literal(ends, part.text)
		} else {
			ends = a.value(ends, part.value.Shape)
		}
	}
	for _, it := range ends {
		a.isEnd[it] = true
	}
}

// isAmbiguous says whether some text has two paths: whether two of them that part come to ends with the same bytes.
func (a *automaton) isAmbiguous() bool {
	type pair struct {
		one, other int
		isParted   bool
	}
	seen := map[pair]bool{}
	var open []pair
	visit := func(one, other int, isParted bool) {
		it := pair{one, other, isParted || one != other}
		if !seen[it] {
			seen[it] = true
			open = append(open, it)
		}
	}
	for _, one := range a.starts {
		for _, other := range a.starts {
			visit(one, other, false)
		}
	}
	for len(open) > 0 {
		it := open[len(open)-1]
		open = open[:len(open)-1]
		if it.isParted && a.isEnd[it.one] && a.isEnd[it.other] {
			return true
		}
		for _, one := range a.edges[it.one] {
			for _, other := range a.edges[it.other] {
				if one.low <= other.high && other.low <= one.high {
					visit(one.to, other.to, it.isParted)
				}
			}
		}
	}
	return false
}

// checkTexts refuses comparisons of texts where two numbers may stand for one text.
func (p *program) checkTexts() {
	if len(p.comparisons) == 0 {
		return
	}
	a := &automaton{isEnd: map[int]bool{}}
	isMade := false
	isMadeAs := map[string]bool{}
	for _, it := range p.forms {
		for _, text := range it.known {
			isMadeAs[text] = true
		}
	}
	for _, text := range p.texts.list {
		if !isMadeAs[text] {
			a.add([]item{{text: text}})
		}
	}
	for _, it := range p.forms {
		if it.kind == String {
			isMade = true
			a.add(it.parts)
		}
	}
	if !isMade || !a.isAmbiguous() {
		return
	}
	for _, node := range p.comparisons {
		p.leave(node, "made-texts", "texts are compared here, and one may be made in two ways", "compare the values that they are made of")
	}
}
