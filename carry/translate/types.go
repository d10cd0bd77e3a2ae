package translate

import (
	"go/ast"
	"go/types"

	"rewind/carry/notes"
)

// shapeOf is the shape of a type.
func (f *function) shapeOf(t types.Type, node ast.Node) Shape {
	if tool := f.withLimit(toolOf(t)); tool != "" {
		if _, ok := under(t).(*types.Struct); ok {
			return tool
		}
		return Handle{tool}
	}
	if fullName(t) == "time.Time" {
		return Unit{}
	}
	if isError(t) {
		return Num{Error}
	}
	if isSignal(t) {
		return Num{String}
	}
	return f.shapeOfForm(t, node)
}

// shapeOfForm is the shape of a type by its form.
func (f *function) shapeOfForm(t types.Type, node ast.Node) Shape {
	switch it := under(t).(type) {
	case *types.Basic:
		return f.basic(it, node)
	case *types.Pointer:
		return f.pointed(it, node)
	case *types.Chan:
		if fullName(it.Elem()) == "time.Time" {
			return Chan{Unit{}}
		}
		return f.channel(it.Elem(), node)
	case *types.Struct:
		return f.record(t, it, node)
	case *types.Slice:
		return f.growOf(it, false, node)
	case *types.Map:
		return f.mapOf(it, node)
	case *types.Signature:
		return f.anyFunc(it, node)
	case *types.Array:
		if it.Len() > mostElements {
			f.refuse(node, "arrays", "an array of more than 64 elements is not carried", "use fewer")
		}
		return List{int(it.Len()), f.shapeOf(it.Elem(), node)}
	case *types.Interface:
		if concrete := f.onlyType(t); concrete != nil {
			f.change(node, "interfaces", "one type alone has the methods of this interface: it stands for it")
			return f.shapeOf(concrete, node)
		}
		if found, ok := f.unionOf(t, node); ok {
			return found
		}
	}
	f.refuseType(t, node)
	return nil
}

// refuseType refuses a type that is not carried.
func (f *function) refuseType(t types.Type, node ast.Node) {
	if _, ok := t.(*types.TypeParam); ok {
		f.refuse(node, "generics", "a type parameter is not carried", "write it for the type that it is used with")
	}
	switch under(t).(type) {
	case *types.Interface:
		f.refuse(node, "interfaces", "interfaces are not carried, but for error", "use the type that stands behind it")
	}
	f.refuse(node, "types", "the type "+types.TypeString(t, types.RelativeTo(f.src.Pkg))+" is not carried", "use int or bool")
}

const mostElements = 64

func isError(t types.Type) bool {
	return t != nil && types.Identical(t, types.Universe.Lookup("error").Type())
}

func isString(t types.Type) bool {
	basic, ok := under(t).(*types.Basic)
	return ok && basic.Info()&types.IsString != 0
}

func (f *function) basic(it *types.Basic, node ast.Node) Shape {
	switch {
	case it.Info()&types.IsInteger != 0:
		f.noteWidth(it, node)
		return Num{}
	case it.Info()&types.IsBoolean != 0:
		return Truth{}
	case it.Info()&types.IsString != 0:
		return Num{String}
	case it.Kind() == types.UntypedNil:
		return Nothing{}
	}
	f.refuse(node, "numbers", "numbers that are not whole are not carried", "count in whole numbers, as hundredths")
	return nil
}

// noteWidth tells of numbers that have fewer bits in Go, or no sign.
func (f *function) noteWidth(it *types.Basic, node ast.Node) {
	switch it.Kind() {
	case types.Int, types.Int64, types.UntypedInt, types.UntypedRune:
	default:
		f.told.Add(f.src.Fset.Position(node.Pos()), notes.Changed, "integers", it.Name()+" is carried as int, so it overflows only at 64 bits", "")
	}
}

func (f *function) pointed(it *types.Pointer, node ast.Node) Shape {
	name := types.TypeString(it, nil)
	if f.records[name] {
		f.refuse(node, "pointers", "a type that holds pointers to itself is not carried", "let a goroutine stand for each part, as in a chain")
	}
	f.records[name] = true
	defer delete(f.records, name)
	return Ref{f.shapeOf(it.Elem(), node)}
}

func (f *function) channel(elem types.Type, node ast.Node) Shape {
	name := types.TypeString(elem, nil)
	if f.records[name] {
		f.refuse(node, "pointers", "a type that holds channels of itself is not carried", "use a type for each level")
	}
	if _, ok := elem.(*types.Named); ok {
		f.records[name] = true
		defer delete(f.records, name)
	}
	shape := f.shapeOf(elem, node)
	if leaves := shape.leaves(); len(leaves) > 1 && !isPackable(leaves) {
		f.refuse(node, "messages", "a message with channels of different kinds is not carried", "let all channels in it carry int")
	}
	return Chan{shape}
}

func (f *function) record(t types.Type, it *types.Struct, node ast.Node) Shape {
	if it.NumFields() == 0 {
		return Unit{}
	}
	name := ""
	if named, ok := t.(*types.Named); ok {
		name = named.Obj().Name()
		if named.TypeArgs().Len() > 0 {
			f.refuse(node, "generics", "a type with type parameters is not carried", "write it for the type that it is used with")
		}
	}
	found := Record{Name: name}
	isWhole := true
	for at := 0; at < it.NumFields(); at++ {
		field := it.Field(at)
		isWhole = f.attempt(node, func() {
			shape := f.grows(field, placeOf(field))
			if shape == nil {
				shape = f.shapeOf(field.Type(), placeOf(field))
			}
			found.Fields = append(found.Fields, Field{field.Name(), shape, !f.writtenFields[field]})
		}) && isWhole
	}
	if !isWhole {
		panic(obstacle{})
	}
	return found
}
