package translate

import (
	"go/ast"
	"go/types"
	"strings"
)

// copied is a value that is read from a place: each tool in it is copied, as Go copies it. So a lock that is handed on by its value is
// another lock than before.
func (f *function) copied(value Value, e ast.Expr) Value {
	if _, ok := value.Shape.(Tool); ok && !isStruct(f.typeOf(e)) {
		return value
	}
	found := value
	found.Code = nil
	code := value.Code
	for _, part := range toolsIn(value.Shape) {
		own := code[:part.width]
		code = code[part.width:]
		if part.tool == "" {
			found.Code = append(found.Code, own...)
			continue
		}
		found.Acts = true
		found.Code = append(found.Code, f.copyOf(part.tool, own, e)...)
	}
	return found
}

func isStruct(t types.Type) bool {
	_, ok := under(t).(*types.Struct)
	return ok
}

// copyOf are the leaves of a copy of a tool.
func (f *function) copyOf(tool Tool, code []string, node ast.Node) []string {
	switch tool {
	case Mutex, RWMutex, WaitGroup, Once, Counter, Flag:
	default:
		f.refuse(node, rules[tool], "a copy of this value is not carried", "hand its address on")
	}
	f.carry(node, rules[tool], "this is a copy, and changes with the first one no more, as in Go; hand its address on where both are to be one")
	var found []string
	for at, leaf := range tools[tool] {
		if t := strings.TrimPrefix(leaf.Type, "chan "); t == "struct{}" {
			found = append(found, f.helper("copy_lock")+"("+code[at]+")")
		} else {
			found = append(found, f.cell(t)+"("+f.load(t)+"("+code[at]+"))")
		}
	}
	return found
}

// A part is a tool within a value, or what lies between two tools.
type part struct {
	tool  Tool
	width int
}

// toolsIn are the parts of a value by their order. What a pointer leads to is no part of it.
func toolsIn(shape Shape) []part {
	switch it := shape.(type) {
	case Tool:
		return []part{{it, len(it.leaves())}}
	case Record:
		var found []part
		for _, field := range it.Fields {
			found = append(found, toolsIn(field.Shape)...)
		}
		return found
	case List:
		var found []part
		for at := 0; at < it.Len; at++ {
			found = append(found, toolsIn(it.Elem)...)
		}
		return found
	}
	return []part{{"", len(shape.leaves())}}
}
