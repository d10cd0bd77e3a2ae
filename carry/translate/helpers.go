package translate

import (
	"fmt"
	"strings"
)

func (p *program) cell(t string) string    { return p.helper("cell:" + t) }
func (p *program) load(t string) string    { return p.helper("load:" + t) }
func (p *program) storing(t string) string { return p.helper("store:" + t) }

func (p *program) index(length int, t string) string {
	return p.helper(fmt.Sprintf("element:%d %s", length, t))
}

// fault is a function that stops the program, and is named after the reason.
func (p *program) fault(reason string) string { return p.helper("fault:" + reason) }

// helper is the name of a function that the carried program has beside those of the source. It is written once, where it is used.
func (p *program) helper(wanted string) string {
	if name, ok := p.helpers[wanted]; ok {
		return name
	}
	kind, about, _ := strings.Cut(wanted, ":")
	base := kind
	switch kind {
	case "fault":
		base = about
	case "cell", "load", "store", "nil", "element", "choose":
		if about != "int" {
			base = kind + "_" + strings.NewReplacer(" ", "_", "{}", "").Replace(about)
		}
	}
	name := p.name(base)
	p.helpers[wanted] = name
	p.texted = append(p.texted, func() string { return "func " + strings.ReplaceAll(p.helperText(kind, about), "SELF", name) })
	return name
}

func (p *program) helperText(kind, about string) string {
	switch kind {
	case "cell":
		return fmt.Sprintf("SELF(value %s) chan %s {\n\tcell := make(chan %s, 1)\n\tcell <- value\n\treturn cell\n}", about, about, about)
	case "load":
		return fmt.Sprintf("SELF(cell chan %s) %s {\n%s\tvalue := <-cell\n\tcell <- value\n\treturn value\n}", about, about, p.check())
	case "store":
		return fmt.Sprintf("SELF(cell chan %s, value %s) {\n%s\t<-cell\n\tcell <- value\n}", about, about, p.check())
	case "nil":
		return fmt.Sprintf("SELF() %s {\n\treturn nil\n}", about)
	case "element":
		return p.elementText(about)
	case "choose":
		return chooseText(about)
	case "error_text":
		return p.errorTextHelper()
	case "error_is":
		return p.errorIsHelper()
	case "fault":
		return "SELF() {\n\tvar never chan int\n\tclose(never)\n}"
	}
	return p.toolText(kind)
}

// check stops the program where a pointer is nil.
func (p *program) check() string {
	if !p.needsCheck {
		return ""
	}
	return "\tif cell == nil {\n\t\t" + p.fault("nil_dereference") + "()\n\t}\n"
}

func (p *program) elementText(about string) string {
	var length int
	fmt.Sscan(about, &length)
	t := about[strings.Index(about, " ")+1:]
	var names, lines []string
	for at := 0; at < length; at++ {
		names = append(names, fmt.Sprintf("of_%d", at))
		lines = append(lines, fmt.Sprintf("\tif index == %d {\n\t\treturn of_%d\n\t}\n", at, at))
	}
	return fmt.Sprintf("SELF(index int, %s %s) %s {\n%s\t%s()\n\treturn %s\n}",
		strings.Join(names, ", "), t, t, strings.Join(lines, ""), p.fault("index_out_of_range"), zeroOf(t))
}

func chooseText(about string) string {
	var count int
	fmt.Sscan(about, &count)
	var lines strings.Builder
	for at := 0; at < count; at++ {
		fmt.Fprintf(&lines, "\tcase <-ready:\n\t\tchosen = %d\n", at)
	}
	return "SELF() int {\n\tready, chosen := make(chan struct{}), 0\n\tclose(ready)\n\tselect {\n" + lines.String() + "\t}\n\treturn chosen\n}"
}

// toolText is the text of a helper for a tool; <<x>> stands for the name of another helper, and <<error:x>> for the number of an error.
func (p *program) toolText(kind string) string {
	text, ok := toolTexts[kind]
	if !ok {
		panic("there is no helper " + kind)
	}
	for {
		at := strings.Index(text, "<<")
		if at < 0 {
			return strings.TrimSpace(text)
		}
		end := at + strings.Index(text[at:], ">>")
		name := text[at+2 : end]
		if said := strings.TrimPrefix(name, "error:"); said != name {
			name = itoa(p.errors.number(said))
		} else {
			name = p.helper(name)
		}
		text = text[:at] + name + text[end+2:]
	}
}

var toolTexts = map[string]string{
	"token": `SELF() chan struct{} {
	token := make(chan struct{}, 1)
	token <- struct{}{}
	return token
}`,
	"within": `SELF(index, length int) int {
	if index < 0 || index >= length {
		<<fault:index_out_of_range>>()
	}
	return index
}`,
	"room": `SELF(length int) int {
	if length < 0 || length > 16 {
		<<fault:slice_is_too_long>>()
	}
	return length
}`,
	"number": `SELF(truth bool) int {
	if truth {
		return 1
	}
	return 0
}`,
	"folded": `SELF(number, most int) int {
	if number < -most/2 || number >= most/2 {
		<<fault:text_is_too_long>>()
	}
	if number < 0 {
		return -2*number - 1
	}
	return 2 * number
}`,
	"unfolded": `SELF(folded int) int {
	if folded%2 == 1 {
		return -(folded + 1) / 2
	}
	return folded / 2
}`,
	"try_lock": `SELF(lock chan struct{}) bool {
	select {
	case lock <- struct{}{}:
		return true
	default:
	}
	return false
}`,
	"read_lock": `SELF(gate chan struct{}, readers chan int, empty chan struct{}) {
	gate <- struct{}{}
	count := <-readers
	if count == 0 {
		<-empty
	}
	readers <- count + 1
	<-gate
}`,
	"read_unlock": `SELF(gate chan struct{}, readers chan int, empty chan struct{}) {
	count := <-readers
	if count == 0 {
		<<fault:read_unlock_of_unlocked_rwmutex>>()
	}
	if count == 1 {
		empty <- struct{}{}
	}
	readers <- count - 1
}`,
	"wait_group_add": `SELF(count chan int, zero chan struct{}, delta int) {
	before := <-count
	if before == 0 && delta > 0 {
		<-zero
	}
	if before+delta < 0 {
		<<fault:negative_waitgroup_counter>>()
	}
	if before > 0 && before+delta == 0 {
		zero <- struct{}{}
	}
	count <- before + delta
}`,
	"wait_group_wait": `SELF(count chan int, zero chan struct{}) {
	<-zero
	zero <- struct{}{}
}`,
	"cond_wait": `SELF(lock chan struct{}, waiters chan chan struct{}) {
	called := make(chan struct{}, 1)
	waiters <- called
	<-lock
	<-called
	lock <- struct{}{}
}`,
	"cond_signal": `SELF(lock chan struct{}, waiters chan chan struct{}) {
	select {
	case called := <-waiters:
		called <- struct{}{}
	default:
	}
}`,
	"cond_broadcast": `SELF(lock chan struct{}, waiters chan chan struct{}) {
	for waiting := len(waiters); waiting > 0; waiting-- {
		select {
		case called := <-waiters:
			called <- struct{}{}
		default:
		}
	}
}`,
	"atomic_add": `SELF(cell chan int, delta int) int {
	value := <-cell + delta
	cell <- value
	return value
}`,
	"atomic_swap": `SELF(cell chan int, value int) int {
	before := <-cell
	cell <- value
	return before
}`,
	"compare_and_swap": `SELF(cell chan int, before, value int) bool {
	found := <-cell
	if found == before {
		cell <- value
		return true
	}
	cell <- found
	return false
}`,
	"flag_swap": `SELF(cell chan bool, value bool) bool {
	before := <-cell
	cell <- value
	return before
}`,
	"fire": `SELF(fired chan struct{}) {
	fired <- struct{}{}
}`,
	"after": `SELF() chan struct{} {
	fired := make(chan struct{}, 1)
	go <<fire>>(fired)
	return fired
}`,
	"beat": `SELF(fired chan struct{}) {
	for {
		fired <- struct{}{}
	}
}`,
	"tick": `SELF() chan struct{} {
	fired := make(chan struct{})
	go <<beat>>(fired)
	return fired
}`,
	"run_timer": `SELF(fired, stop chan struct{}) {
	select {
	case stop <- struct{}{}:
		fired <- struct{}{}
	default:
	}
}`,
	"run_ticker": `SELF(fired, stop chan struct{}) {
	for len(stop) == 0 {
		select {
		case fired <- struct{}{}:
		case <-stop:
			stop <- struct{}{}
		}
	}
}`,
	"stop_timer": `SELF(stop chan struct{}) bool {
	select {
	case stop <- struct{}{}:
		return true
	default:
	}
	return false
}`,
	"reset_timer": `SELF(fired, stop chan struct{}) bool {
	select {
	case <-stop:
		go <<run_timer>>(fired, stop)
		return false
	default:
	}
	return true
}`,
	"copy_lock": `SELF(lock chan struct{}) chan struct{} {
	copied := make(chan struct{}, 1)
	if len(lock) == 1 {
		copied <- struct{}{}
	}
	return copied
}`,
	"cancel": `SELF(done chan struct{}, err chan int, reason int) {
	before := <-err
	if before == 0 {
		close(done)
		before = reason
	}
	err <- before
}`,
	"follow": `SELF(parent chan struct{}, reason chan int, done chan struct{}, err chan int) {
	select {
	case <-parent:
		<<cancel>>(done, err, <<load:int>>(reason))
	case <-done:
	}
}`,
	"expire": `SELF(done chan struct{}, err chan int, reason int) {
	<<cancel>>(done, err, reason)
}`,
}

// wrapper is a function that calls another one in a goroutine of a group, and says when it is done.
func (f *function) wrapper(fun Value, to callee, tool Tool) string {
	wanted := string(tool) + ":" + to.instance.name
	if name, ok := f.helpers[wanted]; ok {
		return name
	}
	name := f.program.name(to.instance.name + map[bool]string{true: "_later", false: "_in_group"}[tool == Timer])
	f.helpers[wanted] = name
	var params, own, given []string
	for at, leaf := range tool.leaves() {
		own = append(own, "group_"+itoa(at))
		params = append(params, own[at]+" "+leaf.Type)
	}
	leaves := fun.Shape.leaves()
	for _, object := range to.instance.globals {
		if known := f.globals[object]; known != nil {
			leaves = append(leaves, known.shape.leaves()...)
		}
	}
	for at, leaf := range leaves {
		given = append(given, "held_"+itoa(at))
		params = append(params, given[at]+" "+leaf.Type)
	}
	call := to.instance.name + "(" + commas(given) + ")"
	body := ""
	if tool == WaitGroup {
		body = "\t" + call + "\n\t" + f.helper("wait_group_add") + "(" + commas(own) + ", -1)\n"
	}
	if tool == Timer {
		body = "\tselect {\n\tcase " + own[1] + " <- struct{}{}:\n\t\t" + call + "\n\tdefault:\n\t}\n"
	}
	if tool == Limited {
		body = "\tfailed := " + call + "\n\t" + f.helper("leave_group") + "(" + commas(own) + ", failed)\n"
	}
	if tool == Group {
		body = "\tfailed := " + call + "\n\t" + f.helper("group_done") + "(" + commas(own) + ", failed)\n"
	}
	text := "func " + name + "(" + commas(params) + ") {\n" + body + "}"
	f.texted = append(f.texted, func() string { return text })
	return name
}
