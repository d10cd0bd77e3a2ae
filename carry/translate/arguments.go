package translate

import (
	"go/ast"
	"go/types"
)

// fitAll makes arguments fit the parameters. Those of a variadic function become a slice.
func (f *function) fitAll(it *ast.CallExpr, sign *types.Signature, values []Value, spread bool) []Value {
	count := sign.Params().Len()
	if sign.Variadic() && !spread {
		elem := sign.Params().At(count - 1).Type().(*types.Slice).Elem()
		shape := f.shapeOf(elem, it)
		rest := Value{Shape: List{len(values) - count + 1, shape}, Binds: atom}
		for _, value := range values[count-1:] {
			value = f.fit(value, shape, it)
			rest.Code, rest.Acts = append(rest.Code, value.Code...), rest.Acts || value.Acts
		}
		if f.slices[elem.String()] {
			rest = Value{Shape: Ref{rest.Shape}, Code: f.celled(rest), Binds: atom, Acts: true}
		}
		values = append(values[:count-1:count-1], rest)
	}
	for at := range values {
		values[at] = f.argument(it, sign.Params().At(at), values[at])
	}
	return values
}

// argument makes a value fit a parameter. One of a slice or a function keeps its own shape, but where the parameter grows.
func (f *function) argument(it *ast.CallExpr, to *types.Var, value Value) Value {
	_, isNil := value.Shape.(Nothing)
	switch under(to.Type()).(type) {
	case *types.Slice, *types.Signature:
		if grow, ok := f.grows(to, it).(Grow); ok && !grow.IsCelled {
			return f.fit(value, grow, it)
		}
		if !isNil {
			return value
		}
	}
	return f.fit(value, f.shapeOf(to.Type(), it), it)
}
