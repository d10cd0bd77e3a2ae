package translate

import "go/ast"

// Groups of golang.org/x/sync/errgroup.

func init() {
	for name, text := range groupTexts {
		toolTexts[name] = text
	}
}

var groupTexts = map[string]string{
	"group_wait": `SELF(count chan int, zero chan struct{}, first chan int, done chan struct{}, err chan int) int {
	<<wait_group_wait>>(count, zero)
	<<cancel>>(done, err, <<error:context canceled>>)
	return <<load:int>>(first)
}`,
	"group_done": `SELF(count chan int, zero chan struct{}, first chan int, done chan struct{}, err chan int, failed int) {
	before := <-first
	if before == 0 && failed != 0 {
		before = failed
		<<cancel>>(done, err, <<error:context canceled>>)
	}
	first <- before
	<<wait_group_add>>(count, zero, -1)
}`,
	"set_limit": `SELF(room chan chan struct{}, limit int) {
	before := <-room
	if before != nil && len(before) > 0 {
		<<fault:modify_limit_while_goroutines_in_the_group_are_active>>()
	}
	if limit < 0 {
		before = nil
	} else {
		before = make(chan struct{}, limit)
	}
	room <- before
}`,
	"take_room": `SELF(room chan chan struct{}) {
	places := <<load:chan struct{}>>(room)
	if places != nil {
		places <- struct{}{}
	}
}`,
	"leave_group": `SELF(count chan int, zero chan struct{}, first chan int, done chan struct{}, err chan int, room chan chan struct{}, failed int) {
	before := <-first
	if before == 0 && failed != 0 {
		before = failed
		<<cancel>>(done, err, <<error:context canceled>>)
	}
	first <- before
	places := <<load:chan struct{}>>(room)
	if places != nil {
		<-places
	}
	<<wait_group_add>>(count, zero, -1)
}`,
}

// withLimit is the tool for an errgroup in a program that limits one.
func (f *facts) withLimit(tool Tool) Tool {
	if tool == Group && f.src.Uses("golang.org/x/sync/errgroup", "SetLimit") {
		return Limited
	}
	return tool
}

// noLimit is the room of an errgroup in which any number may go.
func (f *function) noLimit() string {
	return f.cell("chan struct{}") + "(" + f.typedZero("chan struct{}") + ")"
}

// setLimit makes the room for so many goroutines of a group.
func (f *function) setLimit(it *ast.CallExpr, of []string) []Value {
	f.emit(f.helper("set_limit") + "(" + commas(of[5:], f.codes(it.Args)) + ")")
	return nil
}

// limitedGo waits for room in a group before a goroutine starts.
func (f *function) limitedGo(it *ast.CallExpr, of []string) []Value {
	f.emit(f.helper("take_room") + "(" + of[5] + ")")
	f.emit(f.helper("wait_group_add") + "(" + commas(of[:2]) + ", 1)")
	fun := f.function(it.Args[0])
	to := f.prepareApart(it, fun)
	f.emit("go " + f.wrapper(fun, to, Limited) + "(" + commas(of, to.code) + ")")
	return nil
}

// errWait is g.Wait().
func (f *function) errWait(_ *ast.CallExpr, of []string) []Value {
	return []Value{single(Num{Error}, f.helper("group_wait")+"("+commas(of[:5])+")", true)}
}

// errGo is g.Go(f): a goroutine that calls the function, keeps the first error, and is done.
func (f *function) errGo(it *ast.CallExpr, of []string) []Value {
	f.emit(f.helper("wait_group_add") + "(" + commas(of[:2]) + ", 1)")
	fun := f.function(it.Args[0])
	to := f.prepareApart(it, fun)
	f.emit("go " + f.wrapper(fun, to, Group) + "(" + commas(of, to.code) + ")")
	return nil
}
