package translate

// FormShown is the form of texts that are made, as those who show values read it. A text of the form at place n of the list is
// -(values*1000 + n+1), in which each value takes Most numbers, the last one the lowest. There 0, 1, 2, 3, .. stand for 0, -1, 1, -2, ..
type FormShown struct {
	Most  int         `json:"most"`
	Parts []PartShown `json:"parts"`
}

// PartShown is a text that is known, or a value: a number, a truth, a text or an error.
type PartShown struct {
	Text  string `json:"text,omitempty"`
	Value string `json:"value,omitempty"`
}

// formsShown are the forms of a program.
func (p *program) formsShown() []FormShown {
	var found []FormShown
	for _, it := range p.forms {
		one := FormShown{Most: mostFolded[len(it.values())]}
		for _, part := range it.parts {
			if part.value == nil {
				one.Parts = append(one.Parts, PartShown{Text: part.text})
			} else {
				one.Parts = append(one.Parts, PartShown{Value: kindShown(part.value.Shape)})
			}
		}
		found = append(found, one)
	}
	return found
}

// kindShown says what a number of a shape stands for, of a channel what its values do.
func kindShown(shape Shape) string {
	switch it := shape.(type) {
	case Num:
		return [...]string{"number", "text", "error"}[it.Text]
	case Truth:
		return "truth"
	case Chan:
		return kindShown(it.Elem)
	}
	return ""
}

// saysText says whether numbers of a kind are shown as texts.
func saysText(kind string) bool { return kind == "text" || kind == "error" }

// showAs keeps that variables of the carried program stand for texts, or what lies in their channels does.
func (f *function) showAs(names []string, shape Shape) {
	for at, leaf := range shape.leaves() {
		if at < len(names) {
			f.typed[names[at]] = leaf.Type
		}
		if kind := kindShown(leaf.Of); at < len(names) && saysText(kind) {
			if f.shown[f.instance.name] == nil {
				f.shown[f.instance.name] = map[string]string{}
			}
			f.shown[f.instance.name][names[at]] = kind
		}
	}
}

// moves notes that a statement hands on values of a shape, over a channel or in a cell.
func (f *function) moves(shape Shape) {
	kind := kindShown(shape)
	if leaves := shape.leaves(); len(leaves) != 1 || f.handed != "" && f.handed != kind {
		kind = "several"
	}
	f.handed = kind
}
