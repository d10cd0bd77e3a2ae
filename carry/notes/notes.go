// Package notes has what is told of a program that is carried over: where, by which rule, and what to do.
package notes

import (
	"fmt"
	"go/token"
	"sort"
)

// Kind says what became of a place of the source.
type Kind string

// The kinds of notes, from the mildest to the gravest.
const (
	Carried Kind = "carried"
	Changed Kind = "changed"
	Left    Kind = "left"
)

// Note tells what became of a place of the source. Advice says what to write instead, or is empty.
type Note struct {
	Line   int    `json:"line"`
	Column int    `json:"column"`
	Kind   Kind   `json:"kind"`
	Rule   string `json:"rule"`
	What   string `json:"what"`
	Advice string `json:"advice,omitempty"`
}

var words = map[Kind]string{Carried: "carried", Changed: "carried with a change", Left: "not carried"}

// String is the line that tells a note, without the name of the file.
func (n Note) String() string {
	text := fmt.Sprintf("%d:%d: %s (%s): %s", n.Line, n.Column, words[n.Kind], n.Rule, n.What)
	if n.Advice != "" {
		text += "; " + n.Advice
	}
	return text
}

// List collects notes. The same is told once of a place, and what is not carried once of a line.
type List struct {
	notes []Note
	known map[Note]bool
}

// Copy is a list of the same notes, to which others may be added.
func (l *List) Copy() List {
	found := List{notes: append([]Note(nil), l.notes...), known: map[Note]bool{}}
	for note := range l.known {
		found.known[note] = true
	}
	return found
}

// Add puts a note into the list.
func (l *List) Add(at token.Position, kind Kind, rule, what, advice string) {
	note := Note{at.Line, at.Column, kind, rule, what, advice}
	alike := note
	if kind == Left {
		alike.Column, alike.Advice = 0, ""
	}
	if l.known == nil {
		l.known = map[Note]bool{}
	}
	if !l.known[alike] {
		l.known[alike] = true
		l.notes = append(l.notes, note)
	}
}

// All are the notes by their places.
func (l *List) All() []Note {
	sort.SliceStable(l.notes, func(i, j int) bool {
		a, b := l.notes[i], l.notes[j]
		return a.Line < b.Line || a.Line == b.Line && a.Column < b.Column
	})
	return l.notes
}

// Brief are the notes with one for all places that are carried by one rule in the same way.
func (l *List) Brief() []Note {
	var found []Note
	first := map[Note]int{}
	count := map[int]int{}
	for _, note := range l.All() {
		alike := note
		alike.Line, alike.Column = 0, 0
		if at, ok := first[alike]; ok && note.Kind == Carried {
			count[at]++
			continue
		}
		first[alike] = len(found)
		found = append(found, note)
	}
	for at, more := range count {
		found[at].What += fmt.Sprintf(" (and %d more)", more)
	}
	return found
}

// IsCarried says whether nothing had to be left out.
func (l *List) IsCarried() bool {
	for _, note := range l.notes {
		if note.Kind == Left {
			return false
		}
	}
	return true
}
