package translate

import (
	"go/ast"
	"go/constant"
	"go/types"
)

// Signals of the system: each is its text, and a goroutine stands for each that may come.

var signals = map[int64]string{1: "hangup", 2: "interrupt", 3: "quit", 9: "killed", 15: "terminated"}

const toldOfSignals = "a goroutine stands for the signal, which may come once, at any moment"

func init() {
	packageCalls["os/signal.Notify"] = notifies
	packageCalls["os/signal.NotifyContext"] = notifiesContext
	packageCalls["os/signal.Stop"] = nothing
	toolTexts["signal"] = `SELF(signals chan int, signal int) {
	select {
	case signals <- signal:
	default:
	}
}`
}

// isSignal says whether a type is that of a signal.
func isSignal(t types.Type) bool {
	name := fullName(t)
	return name == "os.Signal" || name == "syscall.Signal"
}

// signal is a constant of package syscall as its text.
func (f *function) signal(known types.TypeAndValue, node ast.Node) Value {
	n, _ := constant.Int64Val(known.Value)
	if signals[n] == "" {
		f.refuse(node, "signals", "this signal is not carried", "use os.Interrupt")
	}
	return Value{Shape: Num{String}, Code: []string{itoa(f.texts.number(signals[n]))}, Binds: atom}
}

// notifies starts a goroutine for each signal that may come.
func notifies(f *function, it *ast.CallExpr) []Value {
	f.change(it, "signals", toldOfSignals)
	values := f.all(it.Args)
	if len(values) == 1 {
		values = append(values, Value{Code: []string{itoa(f.texts.number(signals[2]))}})
	}
	to := values[0]
	if to.Acts {
		to = f.spill(to, "signals")
	}
	for _, signal := range values[1:] {
		f.emit("go " + f.helper("signal") + "(" + commas(to.Code, signal.Code) + ")")
	}
	return nil
}

// notifiesContext is a context that a signal ends.
func notifiesContext(f *function, it *ast.CallExpr) []Value {
	f.change(it, "signals", toldOfSignals)
	found := child(f, it)
	f.emit("go " + f.helper("expire") + "(" + commas(found[0].Code, []string{itoa(f.errors.number("context canceled"))}) + ")")
	return found
}
