package translate

import (
	"go/token"
	"sort"
	"strings"
)

// Place says from which place of the source a line of the carried program comes.
type Place struct {
	Line       int    `json:"line"`   // of the carried program, from 1
	SourceLine int    `json:"source"` // of the source, from 1
	Column     int    `json:"column"` // of the source, from 1
	Function   string `json:"function"`
	Moves      string `json:"moves,omitempty"` // what the values stand for that go over a channel here
}

// A writer writes pieces, each on the line that it has in the source where that is still to come.
type writer struct {
	program *program
	text    strings.Builder
	line    int
	depth   int
	last    kind
	isFirst bool // of a line
	places  []Place
	name    string
}

// write is the whole carried program.
func (p *program) write() *Result {
	w := &writer{program: p, line: 1, isFirst: true}
	w.raw("package main", p.src.File.Package)
	for _, it := range p.inOrder() {
		w.name = it.name
		w.function(it)
	}
	written := w.helpers(0)
	for _, it := range p.prints {
		w.helper(p.printText(it))
	}
	w.helpers(written)
	w.newline()
	result := &Result{Text: w.text.String(), Places: w.places, Names: map[string]string{}, Texts: p.texts.list, Errors: p.errors.list}
	result.Forms, result.Variables = p.formsShown(), p.shown
	for _, it := range p.written {
		result.Names[it.name] = it.body.name
	}
	return result
}

// helpers writes the helpers from one on, with those that they ask for, and gives how many there are now.
func (w *writer) helpers(from int) int {
	for ; from < len(w.program.texted); from++ {
		w.helper(w.program.texted[from]())
	}
	return from
}

func (w *writer) newline() {
	w.text.WriteByte('\n')
	w.line++
	w.isFirst = true
}

// raw writes a text at the line of a place, or at the next one.
func (w *writer) raw(text string, at token.Pos) {
	w.reach(at)
	w.text.WriteString(text)
	w.isFirst = false
}

func (w *writer) reach(at token.Pos) {
	if !at.IsValid() {
		return
	}
	for w.line < w.program.src.Fset.Position(at).Line {
		w.newline()
	}
}

func (w *writer) function(it *instance) {
	if !w.isFirst {
		w.newline()
	}
	if it.again {
		w.newline()
	}
	w.depth = 0
	for at, one := range it.pieces {
		if one.kind == closes || one.kind == turns {
			w.depth--
		}
		w.piece(one, at == 0, it.again)
		if one.kind == opens || one.kind == turns {
			w.depth++
		}
		w.last = one.kind
	}
}

// piece writes one statement: on the line on which it stands in the source, if the function stands there.
func (w *writer) piece(one piece, isHead, isElsewhere bool) {
	if isElsewhere {
		if !w.isFirst {
			w.newline()
		}
	} else {
		w.reach(one.at)
	}
	switch {
	case w.isFirst:
		depth := w.depth
		if one.kind == clause {
			depth--
		}
		w.text.WriteString(strings.Repeat("\t", depth))
	case isHead:
	case w.last == plainPiece && one.kind != closes && one.kind != turns, w.last == closes && one.kind != closes && one.kind != turns:
		w.text.WriteString("; ")
	default:
		w.text.WriteByte(' ')
	}
	w.isFirst = false
	w.text.WriteString(one.text)
	w.note(one)
}

// note keeps from where the line comes.
func (w *writer) note(one piece) {
	position := w.program.src.Fset.Position(one.at)
	place := Place{w.line, position.Line, position.Column, w.name, ""}
	if saysText(one.moves) {
		place.Moves = one.moves
	}
	if len(w.places) > 0 && w.places[len(w.places)-1].Line == w.line && w.places[len(w.places)-1].SourceLine == position.Line {
		if last := &w.places[len(w.places)-1]; last.Moves == "" {
			last.Moves = place.Moves
		}
		return
	}
	w.places = append(w.places, place)
}

func (w *writer) helper(text string) {
	if !w.isFirst {
		w.newline()
	}
	w.newline()
	w.text.WriteString(text)
	w.line += strings.Count(text, "\n")
	w.isFirst = false
}

// Lines gives each line of a carried program its first line of the source.
func Lines(places []Place) map[int]int {
	found := map[int]int{}
	sort.SliceStable(places, func(i, j int) bool { return places[i].Line < places[j].Line })
	for _, it := range places {
		if found[it.Line] == 0 {
			found[it.Line] = it.SourceLine
		}
	}
	return found
}
