package translate

import (
	"fmt"
	"strings"
)

// A mapText writes the helpers of maps of a shape.
type mapText struct {
	name  string
	shape Map
	zero  []string
	p     *program
}

// names are names with numbers behind them, and parameters are those with their types.
func names(base string, leaves []Leaf) (list []string, params []string) {
	for at, leaf := range leaves {
		name := base
		if len(leaves) > 1 {
			name += "_" + itoa(at)
		}
		list, params = append(list, name), append(params, name+" "+leaf.Type)
	}
	return list, params
}

func channelsOf(leaves []Leaf) []Leaf {
	var found []Leaf
	for _, leaf := range leaves {
		found = append(found, Leaf{Type: "chan " + leaf.Type})
	}
	return found
}

func (m mapText) text(kind string) string {
	switch kind {
	case "map_look":
		return m.look()
	case "map_get":
		return m.get()
	case "map_set":
		return m.set()
	case "map_append":
		return m.append()
	case "map_delete":
		return m.remove()
	case "map_keys":
		return m.keys()
	}
	return m.length()
}

// head is the head of a helper, with the parameters for the map and what comes besides.
func (m mapText) head(result string, more ...string) string {
	_, keys := names("keys", channelsOf(m.shape.Key.leaves()))
	_, values := names("values", channelsOf(m.shape.Elem.leaves()))
	return "func " + m.name + "(" + commas([]string{"lock chan int"}, keys, values, more) + ")" + result + " {\n"
}

func (m mapText) beginRead(ifNil string) string {
	return "\tif lock == nil {\n" + ifNil + "\t}\n\tif <-lock == 1 {\n\t\t" + m.p.fault("concurrent_map_read_and_map_write") + "()\n\t}\n"
}

func (m mapText) beginWrite() string {
	return "\tif lock == nil {\n\t\t" + m.p.fault("assignment_to_entry_in_nil_map") + "()\n\t}\n\tif <-lock == 1 {\n\t\t" +
		m.p.fault("concurrent_map_writes") + "()\n\t}\n\tlock <- 1\n"
}

const endRead, endWrite = "\tlock <- 0\n", "\t<-lock\n\tlock <- 0\n"

// eachEntry is a loop over the entries in which something is done with the entry of the key that is wanted.
func (m mapText) eachEntry(withMatch string, keeps string) string {
	keyNames, _ := names("key", m.shape.Key.leaves())
	keys, _ := names("keys", m.shape.Key.leaves())
	wanted, _ := names("wanted", m.shape.Key.leaves())
	valueNames, _ := names("value", m.shape.Elem.leaves())
	values, _ := names("values", m.shape.Elem.leaves())
	var text, back strings.Builder
	fmt.Fprintf(&text, "\tfor left := len(%s); left > 0; left-- {\n", keys[0])
	var same []string
	for at := range keys {
		fmt.Fprintf(&text, "\t\t%s := <-%s\n", keyNames[at], keys[at])
		fmt.Fprintf(&back, "\t\t%s <- %s\n", keys[at], keyNames[at])
		same = append(same, keyNames[at]+" == "+wanted[at])
	}
	for at := range values {
		fmt.Fprintf(&text, "\t\t%s := <-%s\n", valueNames[at], values[at])
		fmt.Fprintf(&back, "\t\t%s <- %s\n", values[at], valueNames[at])
	}
	if withMatch != "" {
		fmt.Fprintf(&text, "\t\tif %s {\n%s\t\t}\n", strings.Join(same, " && "), withMatch)
	}
	if keeps != "" {
		return text.String() + "\t\tif " + keeps + " {\n" + indented(back.String()) + "\t\t}\n\t}\n"
	}
	return text.String() + back.String() + "\t}\n"
}

func indented(text string) string {
	var found strings.Builder
	for _, line := range strings.SplitAfter(text, "\n") {
		if line != "" {
			found.WriteString("\t" + line)
		}
	}
	return found.String()
}

func (m mapText) look() string {
	_, wanted := names("wanted", m.shape.Key.leaves())
	valueNames, _ := names("value", m.shape.Elem.leaves())
	outs, params := names("out", channelsOf(m.shape.Elem.leaves()))
	found, _ := names("found", m.shape.Elem.leaves())
	zeros, take, send := "", "\t\t\tisFound = true\n", ""
	ifNil := ""
	for at, leaf := range m.shape.Elem.leaves() {
		zeros += "\tvar " + found[at] + " " + leaf.Type + " = " + m.zero[at] + "\n"
		take += "\t\t\t" + found[at] + " = " + valueNames[at] + "\n"
		send += "\t" + outs[at] + " <- " + found[at] + "\n"
		ifNil += "\t\t" + outs[at] + " <- " + m.zero[at] + "\n"
	}
	return m.head(" bool", append(wanted, params...)...) + m.beginRead(ifNil+"\t\treturn false\n") + "\tisFound := false\n" + zeros +
		m.eachEntry(take, "") + endRead + send + "\treturn isFound\n}"
}

func (m mapText) get() string {
	_, wanted := names("wanted", m.shape.Key.leaves())
	t := m.shape.Elem.leaves()[0].Type
	return m.head(" "+t, wanted...) + m.beginRead("\t\treturn "+m.zero[0]+"\n") + "\tvar found " + t + " = " + m.zero[0] + "\n" +
		m.eachEntry("\t\t\tfound = value\n", "") + endRead + "\treturn found\n}"
}

func (m mapText) set() string {
	_, wanted := names("wanted", m.shape.Key.leaves())
	valueNames, _ := names("value", m.shape.Elem.leaves())
	given, params := names("given", m.shape.Elem.leaves())
	change := "\t\t\tisNew = false\n"
	for at := range given {
		change += "\t\t\t" + valueNames[at] + " = " + given[at] + "\n"
	}
	return m.head("", append(wanted, params...)...) + m.beginWrite() + "\tisNew := true\n" + m.eachEntry(change, "") +
		m.add(given) + endWrite + "}"
}

// add puts a new entry behind the others.
func (m mapText) add(values []string) string {
	keys, _ := names("keys", m.shape.Key.leaves())
	wanted, _ := names("wanted", m.shape.Key.leaves())
	channels, _ := names("values", m.shape.Elem.leaves())
	text := "\tif isNew {\n\t\tif len(" + keys[0] + ") == " + itoa(mostEntries) + " {\n\t\t\t" + m.p.fault("map_is_too_long") + "()\n\t\t}\n"
	for at := range keys {
		text += "\t\t" + keys[at] + " <- " + wanted[at] + "\n"
	}
	for at := range channels {
		text += "\t\t" + channels[at] + " <- " + values[at] + "\n"
	}
	return text + "\t}\n"
}

// append puts an element behind those of a slice that is the value of an entry.
func (m mapText) append() string {
	grow := m.shape.Elem.(Grow)
	_, wanted := names("wanted", m.shape.Key.leaves())
	valueNames, _ := names("value", m.shape.Elem.leaves())
	given, params := names("given", grow.Elem.leaves())
	elements := grow.Elem.leaves()
	change := "\t\t\tisNew = false\n\t\t\tif value_0 == " + itoa(mostGrown) + " {\n\t\t\t\t" + m.p.fault("slice_is_too_long") + "()\n\t\t\t}\n"
	fresh := append([]string{"1"}, m.zero[1:]...)
	for at := 0; at < mostGrown; at++ {
		change += fmt.Sprintf("\t\t\tif value_0 == %d {\n", at)
		for n, leaf := range elements {
			name := valueNames[1+at*len(elements)+n]
			if grow.IsCelled && !leaf.Fixed {
				change += "\t\t\t\t" + m.p.storing(leaf.Type) + "(" + name + ", " + given[n] + ")\n"
			} else {
				change += "\t\t\t\t" + name + " = " + given[n] + "\n"
			}
		}
		change += "\t\t\t}\n"
	}
	for n, leaf := range elements {
		fresh[1+n] = given[n]
		if grow.IsCelled && !leaf.Fixed {
			fresh[1+n] = m.p.cell(leaf.Type) + "(" + given[n] + ")"
		}
	}
	change += "\t\t\tvalue_0++\n"
	return m.head("", append(wanted, params...)...) + m.beginWrite() + "\tisNew := true\n" + m.eachEntry(change, "") + m.add(fresh) + endWrite + "}"
}

func (m mapText) remove() string {
	_, wanted := names("wanted", m.shape.Key.leaves())
	text := m.head("", wanted...) + strings.Replace(m.beginWrite(), m.p.fault("assignment_to_entry_in_nil_map")+"()", "return", 1)
	keyNames, _ := names("key", m.shape.Key.leaves())
	wantedNames, _ := names("wanted", m.shape.Key.leaves())
	var other []string
	for at := range keyNames {
		other = append(other, keyNames[at]+" != "+wantedNames[at])
	}
	return text + m.eachEntry("", strings.Join(other, " || ")) + endWrite + "}"
}

// keys puts the keys into a queue, which begins with one of them by chance.
func (m mapText) keys() string {
	queues, params := names("queue", channelsOf(m.shape.Key.leaves()))
	keys, _ := names("keys", m.shape.Key.leaves())
	keyNames, _ := names("key", m.shape.Key.leaves())
	first := "\tfor left := len(" + keys[0] + "); left > 0; left-- {\n"
	turn := ""
	for at := range keys {
		first += fmt.Sprintf("\t\t%s := <-%s\n\t\t%s <- %s\n\t\t%s <- %s\n", keyNames[at], keys[at], keys[at], keyNames[at], queues[at], keyNames[at])
		turn += fmt.Sprintf("\t\t\t%s := <-%s\n\t\t\t%s <- %s\n", keyNames[at], queues[at], queues[at], keyNames[at])
	}
	return m.head("", params...) + m.beginRead("\t\tclose("+queues[0]+")\n\t\treturn\n") + first + "\t}\n" + endRead +
		"\tready := make(chan struct{})\n\tclose(ready)\n\tfor left := len(" + queues[0] + "); left > 1; left-- {\n" +
		"\t\tselect {\n\t\tcase <-ready:\n\t\t\tleft = 1\n\t\tcase <-ready:\n" + turn + "\t\t}\n\t}\n\tclose(" + queues[0] + ")\n}"
}

func (m mapText) length() string {
	keys, _ := names("keys", m.shape.Key.leaves())
	return m.head(" int") + m.beginRead("\t\treturn 0\n") + "\tcount := len(" + keys[0] + ")\n" + endRead + "\treturn count\n}"
}
