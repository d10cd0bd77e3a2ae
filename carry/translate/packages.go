package translate

import (
	"go/ast"
	"go/constant"
	"go/token"
	"go/types"
)

// packageVariable is a variable of a known package: an error.
func (f *function) packageVariable(object *types.Var, node ast.Node) place {
	switch object.Pkg().Path() + "." + object.Name() {
	case "context.Canceled":
		return f.known("context canceled")
	case "context.DeadlineExceeded":
		return f.known("context deadline exceeded")
	case "os.Interrupt", "os.Kill":
		text := map[string]string{"Interrupt": signals[2], "Kill": signals[9]}[object.Name()]
		return place{shape: Num{String}, code: []string{itoa(f.texts.number(text))}, cells: []bool{false}}
	}
	f.refuse(node, "packages", object.Pkg().Name()+"."+object.Name()+" is not carried", "")
	return place{}
}

func (f *function) known(text string) place {
	return place{shape: Num{Error}, code: []string{itoa(f.errors.number(text))}, cells: []bool{false}}
}

// packageCall is a call of a function of a known package.
func (f *function) packageCall(it *ast.CallExpr, object *types.Func) []Value {
	name := object.Pkg().Path() + "." + object.Name()
	do := packageCalls[name]
	if do == nil {
		if result, ok := object.Type().(*types.Signature); ok && result.Results().Len() > 0 && result.Results().At(0).Type() == types.Typ[types.String] {
			f.refuse(it, "texts", "a text that is made while the program runs is not carried", "hand its numbers on, and write the text where it is printed")
		}
		f.refuse(it, "packages", object.Pkg().Name()+"."+object.Name()+" is not carried", "leave it out, or pass what it gives as a number")
	}
	return do(f, it)
}

var packageCalls map[string]func(*function, *ast.CallExpr) []Value

func init() {
	packageCalls = map[string]func(*function, *ast.CallExpr) []Value{
		"fmt.Println": prints, "log.Println": logs, "log.Print": logs, "fmt.Print": printsOpen,
		"fmt.Printf": formats, "log.Printf": logsFormat, "log.SetFlags": nothing, "log.SetPrefix": noPrefix,
		"log.Fatal": fatal, "log.Fatalln": fatal, "log.Fatalf": fatalFormat,
		"fmt.Errorf": newError, "errors.New": newError, "errors.Is": isOfError,
		"fmt.Sprintf": makesText, "fmt.Sprint": makesText, "strconv.Itoa": makesText,
		"time.Sleep": sleeps, "time.After": after, "time.Tick": tick, "time.NewTimer": newTimer, "time.NewTicker": newTicker,
		"time.AfterFunc": afterFunc, "time.Now": now, "time.Since": noTime,
		"fmt.Fprintln": toFile(prints), "fmt.Fprint": toFile(printsOpen), "fmt.Fprintf": toFile(formats),
		"log.Panic": logsPanic, "log.Panicln": logsPanic, "log.Panicf": logsPanic,
		"context.Background": background, "context.TODO": background, "context.WithCancel": withCancel, "context.WithTimeout": withTimeout,
		"context.WithDeadline":                   withTimeout,
		"golang.org/x/sync/errgroup.WithContext": groupWithContext,
		"sync.NewCond":                           newCond,
		"math/rand.Intn":                         chooses, "math/rand.Int31n": chooses, "math/rand.Int63n": chooses, "math/rand.Seed": nothing,
		"runtime.Gosched": nothing, "runtime.GOMAXPROCS": processors, "runtime.NumCPU": processors, "runtime.GC": nothing,
		"os.Exit": exits,
	}
	for _, size := range []string{"Int32", "Int64", "Uint32", "Uint64"} {
		packageCalls["sync/atomic.Add"+size] = atomic("atomic_add", Num{})
		packageCalls["sync/atomic.Swap"+size] = atomic("atomic_swap", Num{})
		packageCalls["sync/atomic.CompareAndSwap"+size] = atomic("compare_and_swap", Truth{})
		packageCalls["sync/atomic.Load"+size] = atomicLoads
		packageCalls["sync/atomic.Store"+size] = atomicStores
	}
}

func noPrefix(f *function, it *ast.CallExpr) []Value {
	f.change(it, "printing", "the prefix is left away")
	return nil
}

// processors is the number of processors: one that is small, since goroutines are often started for each.
func processors(f *function, it *ast.CallExpr) []Value {
	f.change(it, "processors", "there are 2 processors here; how many there are does not say how goroutines may go")
	f.all(it.Args)
	return []Value{number(2)}
}

func nothing(f *function, it *ast.CallExpr) []Value { return nil }

func prints(f *function, it *ast.CallExpr) []Value {
	f.print(it, it.Args)
	return nil
}

func printsOpen(f *function, it *ast.CallExpr) []Value {
	groups := f.items(it.Args, "")
	for at, group := range groups {
		if len(group) > 1 {
			groups[at], _ = spaced(group)
		}
	}
	printed := lines(groups)
	if last := len(printed) - 1; len(printed[last]) == 0 && last > 0 {
		printed = printed[:last]
		f.change(it, "printing", "println sets its values apart by blanks")
	} else {
		f.change(it, "printing", "what Print writes is a line of its own")
	}
	for _, line := range printed {
		f.line(it, line)
	}
	return nil
}

func logs(f *function, it *ast.CallExpr) []Value {
	f.change(it, "printing", "what log writes is a line of the console, without the time")
	f.writeLines(it, f.items(it.Args, ""))
	return nil
}

func formats(f *function, it *ast.CallExpr) []Value {
	f.format(it, it.Args)
	return nil
}

func logsFormat(f *function, it *ast.CallExpr) []Value {
	f.change(it, "printing", "what log writes is a line of the console, without the time")
	f.format(it, it.Args)
	return nil
}

func fatal(f *function, it *ast.CallExpr) []Value {
	logs(f, it)
	return exits(f, it)
}

func fatalFormat(f *function, it *ast.CallExpr) []Value {
	logsFormat(f, it)
	return exits(f, it)
}

// logsPanic is a panic whose text stands in a log.
func logsPanic(f *function, it *ast.CallExpr) []Value {
	f.panics(it)
	return nil
}

// toFile is what writes to a file as what writes to the console, if the file is the standard output or the standard error.
func toFile(do func(*function, *ast.CallExpr) []Value) func(*function, *ast.CallExpr) []Value {
	return func(f *function, it *ast.CallExpr) []Value {
		selector, _ := unparen(it.Args[0]).(*ast.SelectorExpr)
		if selector == nil || types.ExprString(selector) != "os.Stdout" && types.ExprString(selector) != "os.Stderr" {
			f.refuse(it, "printing", "only what goes to os.Stdout or os.Stderr is carried", "write it with fmt.Println")
		}
		if selector.Sel.Name == "Stderr" {
			f.change(it, "printing", "what goes to os.Stderr is a line of the console")
		}
		rest := *it
		rest.Args = it.Args[1:]
		return do(f, &rest)
	}
}

func exits(f *function, it *ast.CallExpr) []Value {
	f.change(it, "exit", "to leave the program is a fault: a call of the function exit closes a nil channel")
	f.emit(f.fault("exit") + "()")
	return nil
}

// newError is an error. Each place has an error of its own; one whose text is made is told by its values, too.
func newError(f *function, it *ast.CallExpr) []Value {
	known := f.src.Info.Types[it.Args[0]]
	if known.Value == nil || len(it.Args) > 1 {
		slots := f.slots(it.Args[0], 'v')
		if len(it.Args) > 1 {
			slots = f.slotsOfFormat(it, it.Args)
		}
		return []Value{f.madeOf(it, Error, f.filledSlots([][]slot{slots})[0])}
	}
	f.carry(it, "errors", "an error is a number, and is printed as its text")
	at, ok := f.errorPlaces[it]
	if !ok {
		at = f.errors.fresh(f.plainText(it, constant.StringVal(known.Value)))
		f.errorPlaces[it] = at
	}
	return []Value{{Shape: Num{Error}, Code: []string{itoa(at)}, Binds: atom}}
}

func isOfError(f *function, it *ast.CallExpr) []Value {
	sides := f.all(it.Args)
	if f.wrapsErrors() {
		for at := range sides {
			sides[at] = f.fit(sides[at], Num{Error}, it)
		}
		return []Value{single(Truth{}, f.helper("error_is")+"("+sides[0].one()+", "+sides[1].one()+")", true)}
	}
	return []Value{f.compared(&ast.BinaryExpr{X: it.Args[0], Op: token.EQL, OpPos: it.Pos(), Y: it.Args[1]}, sides[0], sides[1])}
}

func sleeps(f *function, it *ast.CallExpr) []Value {
	f.change(it, "time", "there is no time: a sleep is left away, and whoever is ready may go")
	return nil
}

func after(f *function, it *ast.CallExpr) []Value {
	f.change(it, "time", told[Timer])
	return []Value{single(Chan{Unit{}}, f.helper("after")+"()", true)}
}

func tick(f *function, it *ast.CallExpr) []Value {
	f.change(it, "time", told[Timer])
	return []Value{single(Chan{Unit{}}, f.helper("tick")+"()", true)}
}

func newTimer(f *function, it *ast.CallExpr) []Value { return timer(f, it, "run_timer") }

func newTicker(f *function, it *ast.CallExpr) []Value { return timer(f, it, "run_ticker") }

const noClock = "there is no clock: no time passes between two moments"

func now(f *function, it *ast.CallExpr) []Value {
	f.change(it, "time", noClock)
	return []Value{{Shape: Unit{}, Binds: atom}}
}

// noTime is the time that passed between two moments.
func noTime(f *function, it *ast.CallExpr) []Value {
	f.change(it, "time", noClock)
	f.all(it.Args)
	return []Value{number(0)}
}

// afterFunc is a goroutine that calls a function, unless its timer was stopped before.
func afterFunc(f *function, it *ast.CallExpr) []Value {
	f.change(it, "time", told[Timer])
	made := f.spill(Value{Shape: Timer, Code: []string{f.typedZero("chan struct{}"), "make(chan struct{}, 1)"}, Binds: atom, Acts: true}, "timer")
	fun := f.function(it.Args[1])
	to := f.prepareApart(it, fun)
	f.emit("go " + f.wrapper(fun, to, Timer) + "(" + commas(made.Code, to.code) + ")")
	return []Value{made}
}

func timer(f *function, it *ast.CallExpr, run string) []Value {
	f.change(it, "time", told[Timer])
	made := f.spill(Value{Shape: Timer, Code: []string{"make(chan struct{}, 1)", "make(chan struct{}, 1)"}, Binds: atom, Acts: true}, "timer")
	f.emit("go " + f.helper(run) + "(" + commas(made.Code) + ")")
	return []Value{made}
}

func background(f *function, it *ast.CallExpr) []Value {
	return []Value{{Shape: Context, Code: []string{f.typedZero("chan struct{}"), f.cell("int") + "(0)"}, Binds: atom, Acts: true}}
}

func withCancel(f *function, it *ast.CallExpr) []Value {
	f.carry(it, "context", told[Context])
	return child(f, it)
}

func child(f *function, it *ast.CallExpr) []Value {
	parent := f.value(it.Args[0])
	if parent.Acts {
		parent = f.spill(parent, "parent")
	}
	made := f.spill(Value{Shape: Context, Code: []string{"make(chan struct{})", f.cell("int") + "(0)"}, Binds: atom, Acts: true}, "ctx")
	if !isBackground(f, it.Args[0]) {
		f.emit("go " + f.helper("follow") + "(" + commas(parent.Code, made.Code) + ")")
	}
	return []Value{made, {Shape: Cancel, Code: made.Code, Binds: atom}}
}

// isBackground says whether a context never ends.
func isBackground(f *function, e ast.Expr) bool {
	call, ok := unparen(e).(*ast.CallExpr)
	if !ok {
		return false
	}
	selector, ok := call.Fun.(*ast.SelectorExpr)
	return ok && (selector.Sel.Name == "Background" || selector.Sel.Name == "TODO")
}

func withTimeout(f *function, it *ast.CallExpr) []Value {
	f.change(it, "context", "there is no time: a goroutine stands for the timeout, and may go at any moment")
	found := child(f, it)
	f.emit("go " + f.helper("expire") + "(" + commas(found[0].Code, []string{itoa(f.errors.number("context deadline exceeded"))}) + ")")
	return found
}

func groupWithContext(f *function, it *ast.CallExpr) []Value {
	f.carry(it, "errgroup", told[Group])
	found := child(f, it)
	group := Value{Shape: f.withLimit(Group), Code: []string{f.cell("int") + "(0)", f.helper("token") + "()", f.cell("int") + "(0)"}, Binds: atom, Acts: true}
	group.Code = append(group.Code, found[0].Code...)
	if group.Shape == Limited {
		group.Code = append(group.Code, f.noLimit())
	}
	return []Value{group, found[0]}
}

func newCond(f *function, it *ast.CallExpr) []Value {
	f.carry(it, "cond", told[Cond])
	return []Value{f.conditionWith(f.value(it.Args[0]), it)}
}

const mostChoices = 16

// chooses is a number by chance: whoever takes the step chooses it.
func chooses(f *function, it *ast.CallExpr) []Value {
	n := f.staticInt(it.Args[0])
	if n == nil || *n < 1 || *n > mostChoices {
		f.refuse(it, "chance", "a number by chance is carried only up to a constant of at most 16", "choose among fewer")
	}
	f.change(it, "chance", "a number by chance is a select in which each case is ready: whoever takes the step chooses")
	return []Value{single(Num{}, f.helper("choose:"+itoa(*n))+"()", true)}
}

func atomic(helper string, shape Shape) func(*function, *ast.CallExpr) []Value {
	return func(f *function, it *ast.CallExpr) []Value {
		f.carry(it, "atomic", told[Counter])
		return []Value{single(shape, f.helper(helper)+"("+commas(f.codes(it.Args))+")", true)}
	}
}

func atomicLoads(f *function, it *ast.CallExpr) []Value {
	f.carry(it, "atomic", told[Counter])
	return []Value{single(Num{}, f.load("int")+"("+commas(f.codes(it.Args))+")", true)}
}

func atomicStores(f *function, it *ast.CallExpr) []Value {
	f.carry(it, "atomic", told[Counter])
	f.emit(f.storing("int") + "(" + commas(f.codes(it.Args)) + ")")
	return nil
}
