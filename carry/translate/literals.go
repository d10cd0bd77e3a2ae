package translate

import (
	"go/ast"
	"go/types"
)

// literal is a struct, an array or a slice that is written down.
func (f *function) literal(it *ast.CompositeLit) Value {
	t := f.typeOf(it)
	if pointer, ok := under(t).(*types.Pointer); ok {
		value := f.elements(it, pointer.Elem())
		return Value{Shape: Ref{value.Shape}, Code: f.celled(value), Binds: atom, Acts: true}
	}
	return f.elements(it, t)
}

func (f *function) elements(it *ast.CompositeLit, t types.Type) Value {
	if tool := toolOf(t); tool != "" {
		return f.toolLiteral(tool, it)
	}
	switch kind := under(t).(type) {
	case *types.Struct:
		shape := f.shapeOf(t, it)
		if record, ok := shape.(Record); ok {
			return f.recordLiteral(it, record, kind)
		}
		return Value{Shape: shape, Binds: atom}
	case *types.Map:
		return f.mapLiteral(it, f.shapeOf(t, it).(Map))
	case *types.Array:
		return f.listLiteral(it, int(kind.Len()), kind.Elem(), false)
	case *types.Slice:
		return f.listLiteral(it, -1, kind.Elem(), f.slices[kind.Elem().String()])
	}
	f.shapeOf(t, it)
	return Value{}
}

func (f *function) recordLiteral(it *ast.CompositeLit, record Record, t *types.Struct) Value {
	var given []ast.Expr
	var places []int
	for at, e := range it.Elts {
		if pair, ok := e.(*ast.KeyValueExpr); ok {
			for n, field := range record.Fields {
				if field.Name == pair.Key.(*ast.Ident).Name {
					at = n
				}
			}
			e = pair.Value
		}
		f.refuseTwoOwners(t.Field(at), e)
		given, places = append(given, e), append(places, at)
	}
	values := f.all(given)
	found := Value{Shape: record, Binds: atom}
	for at, field := range record.Fields {
		part := Value{}
		for n, place := range places {
			if place == at {
				part = f.fit(values[n], field.Shape, it)
			}
		}
		if part.Shape == nil {
			part = f.zero(field.Shape)
		}
		found.Code, found.Acts = append(found.Code, part.Code...), found.Acts || part.Acts
	}
	return found
}

func (f *function) listLiteral(it *ast.CompositeLit, length int, elem types.Type, isWritten bool) Value {
	if length < 0 {
		length = len(it.Elts)
	}
	if length > mostElements {
		f.refuse(it, "slices", "a slice of more than 64 elements is not carried", "use fewer")
	}
	for _, e := range it.Elts {
		if _, ok := e.(*ast.KeyValueExpr); ok {
			f.refuse(e, "slices", "an element with its index is not carried", "write the elements in their order")
		}
	}
	values := f.all(it.Elts)
	var shape Shape
	if len(values) > 0 {
		shape = values[0].Shape
	}
	_, isFunc := shape.(Func)
	for _, value := range values {
		isFunc = isFunc && value.Shape.key() == shape.key()
	}
	if !isFunc {
		shape = f.shapeOf(elem, it)
	}
	found := Value{Shape: List{length, shape}, Binds: atom}
	for at := 0; at < length; at++ {
		part := f.zero(shape)
		if at < len(values) {
			part = f.fit(values[at], shape, it)
		}
		found.Code, found.Acts = append(found.Code, part.Code...), found.Acts || part.Acts
	}
	if isWritten {
		return Value{Shape: Ref{found.Shape}, Code: f.celled(found), Binds: atom, Acts: true, Raw: found.Code}
	}
	return found
}

// slice is a part of a slice or an array between constant bounds.
func (f *function) slice(it *ast.SliceExpr) Value {
	where := f.start(it.X)
	ref, isRef := where.shape.(Ref)
	if isRef {
		where = f.pointee(f.read(where))
		_ = ref
	}
	list, ok := where.shape.(List)
	low, high := 0, list.Len
	for _, bound := range []struct {
		e  ast.Expr
		to *int
	}{{it.Low, &low}, {it.High, &high}} {
		if bound.e != nil {
			n := f.value(bound.e).Number
			ok = ok && n != nil
			if n != nil {
				*bound.to = *n
			}
		}
	}
	if !ok || low > high || high > list.Len {
		f.refuse(it, "slices", "a part of a slice is not carried, but between constant bounds", "write the loop over the indices")
	}
	width := len(list.Elem.leaves())
	part := place{shape: List{high - low, list.Elem}, code: where.code[low*width : high*width], cells: where.cells[low*width : high*width]}
	for _, isCell := range part.cells {
		if isCell {
			return Value{Shape: Ref{part.shape}, Code: part.code, Binds: atom}
		}
	}
	return f.read(part)
}
