package translate

import (
	"go/ast"
	"go/types"
	"strings"
)

// The types of known packages that are carried, each as a tool.
var toolTypes = map[string]Tool{
	"sync.Mutex": Mutex, "sync.RWMutex": RWMutex, "sync.WaitGroup": WaitGroup, "sync.Once": Once, "sync.Cond": Cond,
	"time.Timer": Timer, "time.Ticker": Timer, "context.Context": Context, "context.CancelFunc": Cancel,
	"golang.org/x/sync/errgroup.Group": Group, "sync.Locker": Mutex,
	"sync/atomic.Int32": Counter, "sync/atomic.Int64": Counter, "sync/atomic.Uint32": Counter, "sync/atomic.Uint64": Counter,
	"sync/atomic.Bool": Flag,
}

// toolOf is the tool that a type stands for, or the one that a pointer of this type leads to; empty where it is none.
func toolOf(t types.Type) Tool {
	if pointer, ok := t.(*types.Pointer); ok {
		t = pointer.Elem()
	}
	return toolTypes[fullName(t)]
}

// fullName is the path and the name of a declared type of another package.
func fullName(t types.Type) string {
	named, ok := t.(*types.Named)
	if !ok || named.Obj().Pkg() == nil {
		return ""
	}
	return named.Obj().Pkg().Path() + "." + named.Obj().Name()
}

// newTool is a new tool: the channels that stand for it, with what lies in them at first.
func (f *function) newTool(tool Tool) Value {
	found := Value{Shape: tool, Binds: atom, Acts: true}
	switch tool {
	case Mutex:
		found.Code = []string{"make(chan struct{}, 1)"}
	case RWMutex:
		found.Code = []string{"make(chan struct{}, 1)", f.cell("int") + "(0)", f.helper("token") + "()"}
	case WaitGroup:
		found.Code = []string{f.cell("int") + "(0)", f.helper("token") + "()"}
	case Once:
		found.Code = []string{f.cell("bool") + "(false)"}
	case Counter:
		found.Code = []string{f.cell("int") + "(0)"}
	case Flag:
		found.Code = []string{f.cell("bool") + "(false)"}
	case Group, Limited:
		found.Code = []string{f.cell("int") + "(0)", f.helper("token") + "()", f.cell("int") + "(0)", "make(chan struct{})", f.cell("int") + "(0)"}
		if tool == Limited {
			found.Code = append(found.Code, f.noLimit())
		}
	default:
		for _, leaf := range tool.leaves() {
			found.Code = append(found.Code, f.typedZero(leaf.Type))
		}
	}
	return found
}

// toolLiteral is a tool that is written down: without fields, or a condition with its lock.
func (f *function) toolLiteral(tool Tool, it *ast.CompositeLit) Value {
	if len(it.Elts) == 0 {
		return f.newTool(tool)
	}
	if pair, ok := it.Elts[0].(*ast.KeyValueExpr); ok && tool == Cond {
		return f.conditionWith(f.value(pair.Value), it)
	}
	f.refuse(it, "packages", "this value is not carried", "")
	return Value{}
}

func (f *function) conditionWith(lock Value, node ast.Node) Value {
	if lock.Shape != Mutex {
		f.refuse(node, "cond", "a condition with another lock than a Mutex is not carried", "use a sync.Mutex")
	}
	return Value{Shape: Cond, Code: []string{lock.Code[0], "make(chan chan struct{}, 1000)"}, Binds: atom, Acts: true}
}

// What is told of the tools, once where each of their calls stands.
var told = map[Tool]string{
	Mutex:     "a mutex is a channel with room for one value: a send takes it, a receive gives it back",
	RWMutex:   "a lock for readers and writers is a gate, the number of readers, and a token that lies there while there is none",
	WaitGroup: "a WaitGroup is a number in a cell, and a token that lies there while the number is 0",
	Once:      "a Once is a truth value in a cell, which is held while the function runs",
	Cond:      "a condition is a queue of channels, one for each goroutine that waits",
	Counter:   "an atomic number lies in a cell, and each operation takes it once",
	Flag:      "an atomic truth value lies in a cell, and each operation takes it once",
	Group:     "an errgroup is a WaitGroup with the first error in a cell",
	Limited:   "an errgroup is a WaitGroup with the first error in a cell, and a channel with room for as many as may go",
	Context:   "a context is a channel that is closed when it ends, and its error in a cell",
	Timer:     "there is no time: a goroutine stands for the timer, and may go at any moment",
}

// toolMethod is a call of a method of a tool.
func (f *function) toolMethod(it *ast.CallExpr, selector *ast.SelectorExpr, choice *types.Selection) []Value {
	if fullName(f.typeOf(selector.X)) == "time.Duration" {
		return []Value{f.lengthOfTime(it, selector)}
	}
	receiver := f.receiver(selector, types.Typ[types.Int], choice)
	if receiver.Acts {
		receiver = f.spill(receiver, "tool")
	}
	tool, ok := isTool(receiver.Shape)
	name := choice.Obj().Name()
	if fullName(f.typeOf(selector.X)) == "time.Time" {
		return []Value{f.moment(it, name)}
	}
	if !ok {
		f.refuse(it, "packages", name+" is not carried", "")
	}
	if tool == Timer || tool == Context {
		f.change(it, rules[tool], told[tool])
	} else {
		f.carry(it, rules[tool], told[tool])
	}
	if len(receiver.Code) > 0 {
		f.checkTool(selector.X, receiver.Code[0])
	}
	do := methods[string(tool)+"."+name]
	if do == nil {
		f.refuse(it, rules[tool], name+" of this type is not carried", "")
	}
	return do(f, it, receiver.Code)
}

var rules = map[Tool]string{
	Mutex: "mutex", RWMutex: "rwmutex", WaitGroup: "waitgroup", Once: "once", Cond: "cond", Counter: "atomic", Flag: "atomic",
	Group: "errgroup", Limited: "errgroup", Context: "context", Cancel: "context", Timer: "time",
}

type toolCall = func(f *function, it *ast.CallExpr, of []string) []Value

// methods are the methods of tools by the tool and their names. They are set in init, since they call what looks at them.
var methods map[string]toolCall

func init() {
	methods = map[string]toolCall{
		"mutex.Lock":                says("%0 <- struct{}{}"),
		"mutex.Unlock":              (*function).unlock,
		"mutex.TryLock":             (*function).tryLock,
		"rwmutex.Lock":              says("%0 <- struct{}{}", "<-%2"),
		"rwmutex.Unlock":            (*function).unlockWriter,
		"rwmutex.RLock":             helps("read_lock"),
		"rwmutex.RUnlock":           helps("read_unlock"),
		"waitgroup.Add":             helps("wait_group_add"),
		"waitgroup.Done":            (*function).done,
		"waitgroup.Wait":            helps("wait_group_wait"),
		"waitgroup.Go":              (*function).groupGo,
		"once.Do":                   (*function).onceDo,
		"cond.Wait":                 helps("cond_wait"),
		"cond.Signal":               helps("cond_signal"),
		"cond.Broadcast":            helps("cond_broadcast"),
		"atomic.Add":                gives("atomic_add", Num{}),
		"atomic.Load":               (*function).atomicLoad,
		"atomic.Store":              (*function).atomicStore,
		"atomic.Swap":               gives("atomic_swap", Num{}),
		"atomic.CompareAndSwap":     gives("compare_and_swap", Truth{}),
		"atomic bool.Load":          (*function).flagLoad,
		"atomic bool.Store":         (*function).flagStore,
		"atomic bool.Swap":          gives("flag_swap", Truth{}),
		"context.Done":              (*function).contextDone,
		"context.Err":               (*function).contextErr,
		"timer.Stop":                (*function).stopTimer,
		"timer.Reset":               (*function).resetTimer,
		"errgroup.Go":               (*function).errGo,
		"errgroup.Wait":             (*function).errWait,
		"limited errgroup.Go":       (*function).limitedGo,
		"limited errgroup.Wait":     (*function).errWait,
		"limited errgroup.SetLimit": (*function).setLimit,
	}
}

// says is a call that is statements of the language, in which %0 is the first leaf.
func says(texts ...string) toolCall {
	return func(f *function, _ *ast.CallExpr, of []string) []Value {
		for _, text := range texts {
			for at, code := range of {
				text = strings.ReplaceAll(text, "%"+itoa(at), code)
			}
			f.emit(text)
		}
		return nil
	}
}

// helps is a call of a helper with the leaves and the arguments.
func helps(name string) toolCall {
	return func(f *function, it *ast.CallExpr, of []string) []Value {
		f.emit(f.helper(name) + "(" + commas(of, f.codes(it.Args)) + ")")
		return nil
	}
}

// gives is such a call with a value.
func gives(name string, shape Shape) toolCall {
	return func(f *function, it *ast.CallExpr, of []string) []Value {
		return []Value{single(shape, f.helper(name)+"("+commas(of, f.codes(it.Args))+")", true)}
	}
}

func (f *function) codes(args []ast.Expr) []string {
	var found []string
	for _, value := range f.arguments(args) {
		found = append(found, value.Code...)
	}
	return found
}

func (f *function) unlock(_ *ast.CallExpr, of []string) []Value {
	f.giveBack("<-"+of[0], "unlock_of_unlocked_mutex")
	return nil
}

// giveBack receives what must be there, else it stops the program.
func (f *function) giveBack(receive, fault string) {
	f.open("select {")
	f.label("case " + receive + ":")
	f.label("default:")
	f.emit(f.fault(fault) + "()")
	f.close()
}

func (f *function) unlockWriter(_ *ast.CallExpr, of []string) []Value {
	f.emit(of[2] + " <- struct{}{}")
	f.giveBack("<-"+of[0], "unlock_of_unlocked_rwmutex")
	return nil
}

func (f *function) tryLock(_ *ast.CallExpr, of []string) []Value {
	return []Value{single(Truth{}, f.helper("try_lock")+"("+of[0]+")", true)}
}

func (f *function) done(_ *ast.CallExpr, of []string) []Value {
	f.emit(f.helper("wait_group_add") + "(" + commas(of) + ", -1)")
	return nil
}

// groupGo is wg.Go(f): a goroutine that calls the function and is done.
func (f *function) groupGo(it *ast.CallExpr, of []string) []Value {
	f.emit(f.helper("wait_group_add") + "(" + commas(of) + ", 1)")
	fun := f.function(it.Args[0])
	to := f.prepareApart(it, fun)
	f.emit("go " + f.wrapper(fun, to, WaitGroup) + "(" + commas(of, to.code) + ")")
	return nil
}

// onceDo holds the Once while the function runs for the first time.
func (f *function) onceDo(it *ast.CallExpr, of []string) []Value {
	fun := f.function(it.Args[0])
	f.open("if !<-" + of[0] + " {")
	f.drop(f.apply(it, fun, nil, false))
	f.close()
	f.emit(of[0] + " <- true")
	return nil
}

func (f *function) atomicLoad(_ *ast.CallExpr, of []string) []Value {
	return []Value{single(Num{}, f.load("int")+"("+of[0]+")", true)}
}

func (f *function) atomicStore(it *ast.CallExpr, of []string) []Value {
	f.emit(f.storing("int") + "(" + of[0] + ", " + commas(f.codes(it.Args)) + ")")
	return nil
}

func (f *function) flagLoad(_ *ast.CallExpr, of []string) []Value {
	return []Value{single(Truth{}, f.load("bool")+"("+of[0]+")", true)}
}

func (f *function) flagStore(it *ast.CallExpr, of []string) []Value {
	f.emit(f.storing("bool") + "(" + of[0] + ", " + commas(f.codes(it.Args)) + ")")
	return nil
}

func (f *function) contextDone(_ *ast.CallExpr, of []string) []Value {
	return []Value{{Shape: Chan{Unit{}}, Code: of[:1], Binds: atom}}
}

func (f *function) contextErr(_ *ast.CallExpr, of []string) []Value {
	return []Value{single(Num{Error}, f.load("int")+"("+of[1]+")", true)}
}

func (f *function) stopTimer(_ *ast.CallExpr, of []string) []Value {
	return []Value{single(Truth{}, f.helper("stop_timer")+"("+of[1]+")", true)}
}

// resetTimer starts a timer anew. A ticker goes on as it did.
func (f *function) resetTimer(it *ast.CallExpr, of []string) []Value {
	f.all(it.Args)
	if fullName(pointedType(f.typeOf(it.Fun.(*ast.SelectorExpr).X))) == "time.Ticker" {
		return nil
	}
	if f.src.Uses("time", "AfterFunc") {
		f.refuse(it, "time", "Reset is not carried in a program with time.AfterFunc", "make a new timer")
	}
	return []Value{single(Truth{}, f.helper("reset_timer")+"("+commas(of)+")", true)}
}
