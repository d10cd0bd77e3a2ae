// Package report has all that is told of a program that is carried over.
package report

import (
	"encoding/json"
	"go/token"

	"rewind/carry/notes"
	"rewind/carry/source"
	"rewind/carry/translate"
)

// A Report is what became of a program: the carried program, where all of it is carried, and the notes.
type Report struct {
	Carried   bool              `json:"carried"`
	Source    string            `json:"source"`
	Text      string            `json:"text,omitempty"`
	Notes     []notes.Note      `json:"notes"`
	Places    []translate.Place `json:"places,omitempty"`
	Functions map[string]string `json:"functions,omitempty"`
	Texts     []string          `json:"texts,omitempty"`
	Errors    []string          `json:"errors,omitempty"`

	Forms     []translate.FormShown        `json:"forms,omitempty"`
	Variables map[string]map[string]string `json:"variables,omitempty"`

	// Brief are the notes with one for all places that are carried by one rule in the same way.
	Brief []notes.Note `json:"-"`
}

// Of carries a program over. A carried program that Go would not accept is none.
func Of(name string, text []byte, options translate.Options) Report {
	var told notes.List
	src, err := source.Load(name, text, &told)
	found := &translate.Result{}
	if err == nil {
		found = translate.Program(src, options, &told)
	}
	if err := source.Check(found.Text); found.Text != "" && err != nil {
		why := "the carried program would not be one: " + err.Error()
		told.Add(token.Position{Line: 1, Column: 1}, notes.Left, "whole", why, "write the program in a plainer form")
		found = &translate.Result{}
	}
	list := told.All()
	if list == nil {
		list = []notes.Note{}
	}
	return Report{
		Carried: told.IsCarried(), Source: name, Text: found.Text, Notes: list, Places: found.Places, Functions: found.Names,
		Texts: found.Texts, Errors: found.Errors, Forms: found.Forms, Variables: found.Variables, Brief: told.Brief(),
	}
}

// JSON is the report as `--json` and `--map` write it.
func (r Report) JSON() []byte {
	text, err := json.MarshalIndent(r, "", " ")
	if err != nil {
		panic(err)
	}
	return append(text, '\n')
}
