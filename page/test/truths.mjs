// What the page says is true in every state: during runs, after faults, in long logs, over reloads and refused sources.

import assert from "node:assert/strict";
import { inTurn } from "./parts.mjs";

export const LOOP = `package main
func count(c chan int) { for { c <- 1 } }
func main() {
	c := make(chan int)
	go count(c)
	total := 0
	for { total += <-c }
}
`;
const PLAIN = "package main\nfunc main() {\n\tx := 1\n\n\tprintln(x)\n}\n";

// A program with more goroutines than the panes show, one of which passes line 8.
/** @param {number} turns */
const many = (turns) => `package main
func spin() { for { } }
func odd() {
	x := 0
	for i := 0; i < ${turns}; i++ {
		x += i
	}
	x = 8
	for { }
}
func main() {
	for i := 0; i < 230; i++ { go spin() }
	go odd()
	for { }
}
`;

const SELECT = `package main
func send(c chan int, v int) { c <- v }
func main() {
	a, b := make(chan int), make(chan int)
	go send(a, 1)
	go send(b, 2)
	x := 0
	for i := 0; i < 8000; i++ { x += i }
	select {
	case v := <-a: println(v)
	case v := <-b: println(v)
	}
}
`;

const CLOSED = `package main
func main() {
	a, b := make(chan int), make(chan int, 1)
	close(b)
	x := 0
	select {
	case a <- 1: x = 1
	case b <- 2: x = 2
	}
	println(x)
}
`;

/** @param {Hands} hands */
async function openingDuringARun(hands) {
  await hands.source(LOOP);
  await hands.browser.run("rewind.page.perform('run 300000'), 0");
  await hands.until("rewind.page.session.isRunning");
  await hands.source(PLAIN);
  assert.deepEqual(await hands.ids(), [], "a text that is started during a run has no steps");
  assert.ok(!/run 300000|has ended|steps taken/.test(await hands.text("#transcript") + (await hands.text("#status"))), "and nothing of the run is told of it");
}

// How many edges a saved picture has, and what it says of its part.
/** @param {Hands} hands */
async function saved(hands) {
  const text = await hands.browser.run("rewind.savePicture(rewind.page)");
  return { edges: text.split('<path class="edge ').length - 1 - 4, part: /<title>(.*)<\/title>/.exec(text)?.[1] || "", rows: text.split("data-step=").length - 1 };
}

/** @param {Hands} hands */
async function savedPictures(hands) {
  await hands.source(LOOP);
  await hands.perform("run 2000");
  const whole = await saved(hands);
  assert.equal(whole.rows, 2000, "a saved picture of 2,000 steps has every step");
  assert.ok(whole.edges > 700 && whole.edges === (await hands.edges()).length, "and every edge");
  await hands.perform("run 10000");
  const part = await saved(hands);
  assert.ok(/Steps [\d,]+ to [\d,]+ of 12,000/.test(part.part), "one of 12,000 steps says which part it shows");
  assert.ok(part.edges > 300, "and has the edges of that part");
  assert.ok(/in view/.test(await hands.text("#picture-note")), "the page says that only the arrows in view are drawn");
  assert.ok((await hands.drawn()).length > 10 && (await hands.browser.run("document.querySelectorAll('#picture .edge').length")) > 5, "the arrows in view are there");
}

/** @param {Hands} hands */
async function breakpointsOfManyGoroutines(hands) {
  for (const turns of [2, 5]) {
    await hands.source(many(turns));
    await hands.perform("break 8");
    await hands.perform("run 300000");
    assert.ok(/stopped at the breakpoint in line 8/.test(await hands.text("#status")), `a breakpoint is met among 232 goroutines, after ${turns} turns`);
    const at = await hands.browser.run("rewind.page.session.reader.standing('g0.231').then(({ line }) => line)");
    assert.equal(at, 8, "and the goroutine stands there");
  }
}

const dots = "[...document.querySelectorAll('.break-mark')].map((it) => it.title)";

/** @param {Hands} hands */
async function breakpointsOfThePage(hands) {
  await hands.source(PLAIN);
  await hands.browser.run("rewind.toggleBreak(rewind.page, 4)");
  await hands.idle();
  assert.deepEqual(await hands.browser.run(dots), ["breakpoint at line 5"], "a breakpoint on an empty line stands at the next statement");
  await hands.act("start");
  assert.deepEqual(await hands.browser.run(dots), ["breakpoint at line 5"], "a breakpoint is there after a new start");
  await hands.act("run");
  assert.equal(await hands.text("#status"), "1 step taken: stopped at the breakpoint in line 5.", "and stops a run");
  await hands.browser.run("rewind.page.views.editor.editor.replaceRange('\\t// one\\n', { line: 2, ch: 0 })");
  await hands.act("start");
  assert.deepEqual(await hands.browser.run(dots), ["breakpoint at line 6"], "it moves with its text");
  await hands.act("run");
  assert.equal(await hands.text("#status"), "1 step taken: stopped at the breakpoint in line 6.", "and stops a run there");
  await hands.perform("clear 6");
  await hands.browser.run("rewind.page.views.editor.editor.setCursor({ line: 2, ch: 0 }), rewind.act(rewind.page, 'to-line'), rewind.page.perform('log'), 0");
  await hands.idle();
  assert.deepEqual([await hands.browser.run(dots), await hands.browser.run("[...rewind.page.session.breakpoints]")], [[], []], "the line to which a run goes is no breakpoint, also where a command comes between");
}

/** @param {Hands} hands */
async function severalBreakpoints(hands) {
  await hands.story("deadlock");
  for (const line of [5, 9, 14]) await hands.browser.run(`rewind.toggleBreak(rewind.page, ${line})`);
  await hands.act("start");
  assert.deepEqual(await hands.browser.run("[rewind.page.views.editor.breaks.length, rewind.page.session.breakpoints.size]"), [3, 3], "several breakpoints are there after a new start");
  await hands.browser.run("rewind.page.views.editor.markBreaks([])");
  await hands.act("start");
}

/** @param {Hands} hands */
async function clausesBehindABreakpoint(hands) {
  await hands.source(SELECT.replace("8000", "3"));
  await hands.perform("break 9");
  await hands.perform("run 60");
  assert.deepEqual(await hands.browser.run("rewind.page.session.scene.clauses.get('g0').map(({ number }) => number)"), [1, 2], "both clauses of a select are offered where a breakpoint ended the run");
  assert.ok(/^run [1-5]?\d$/.test(await hands.browser.run("rewind.page.session.commands.at(-1)")), "and the steps that it took are kept");
  await hands.perform("clear 9");
}

/** @param {Hands} hands */
async function clausesAtAnyLength(hands) {
  await hands.source(SELECT);
  await hands.perform("break 9");
  await hands.perform("run 100000");
  assert.ok((await hands.browser.run("rewind.page.session.log.length")) > 20000, "a long log");
  assert.deepEqual(await hands.browser.run("rewind.page.session.scene.clauses.get('g0').map(({ number }) => number)"), [1, 2], "both clauses of a select are offered there");
  await hands.key("2");
  assert.equal((await hands.lastReply()).slice(-1)[0].replace(/#\d+/, ""), "ok g0 pick 2", "and can be taken by a key");
  await hands.perform("clear 9");
}

/** @param {Hands} hands */
async function faultsInClauses(hands) {
  await hands.source(CLOSED);
  for (const line of ["run 5", "step g0 2"]) await hands.perform(line);
  assert.ok(/fault SendOnClosed/.test(await hands.text("#transcript")), "a fault in a picked clause is one");
  const last = await hands.browser.run("rewind.page.note(rewind.page.session.log.end.id).line");
  assert.equal(last, 6, "and has its line");
  assert.equal(await hands.text("#picture-note"), "", "the page does not say that lines are missing");
}

/** @param {Hands} hands */
async function deaths(hands) {
  await hands.source(PLAIN);
  await hands.perform("step g0");
  await hands.browser.run("rewind.page.session.user.worker.terminate(), rewind.page.session.user.end('RuntimeError: unreachable')");
  await hands.perform("step g0");
  assert.ok(/The session is gone: .*unreachable/.test(await hands.text("#status")), "a session that died is said to be gone, and why");
  assert.equal(await hands.browser.run("document.getElementById('step').disabled"), true, "its buttons are off");
  await hands.browser.run("document.getElementById('bring-back').click()");
  await hands.until("rewind.page.session.user.status === null");
  await hands.idle();
  assert.deepEqual([await hands.ids(), await hands.text("#status")], [["g0#1"], "1 step taken again."], "its steps can be brought back");
  const long = `package main\nfunc main() {\n\tfor { println("${"x".repeat(10000)}") }\n}\n`;
  await hands.source(long);
  await hands.perform("run 400");
  assert.equal(await hands.browser.run("rewind.page.session.scene.console.lines[0].length"), 10000, "a long print is in the console");
  assert.ok((await hands.browser.run("document.getElementById('picture').scrollWidth")) < 900, "and does not widen the picture");
  await hands.browser.run("rewind.page.perform('run 100000'), 0");
  await hands.idle();
  assert.deepEqual(await hands.texts("#console li"), ["More was printed than there is memory to show. Take steps back to see it."], "where more was printed than there is memory to show, the page says so");
  assert.deepEqual([await hands.browser.run("rewind.page.session.gone"), await hands.browser.run("rewind.page.session.log.length")], ["", 100400], "and the session goes on");
  await hands.browser.run("rewind.page.session.reader.ask = async (questions) => questions.map(() => ({ isOk: false, lines: [], last: 'no Q2', words: ['no', 'Q2'] }))");
  await hands.perform("undo");
  const panes = await hands.browser.run("['goroutines', 'channels', 'console'].map((id) => document.getElementById(id).innerText)");
  assert.deepEqual(panes, Array(3).fill("This state cannot be shown."), "where there is no memory for the panes, they are empty and say so");
  assert.ok(/^The session goes on, but its panes cannot be shown: the session refused a question: no Q2/.test(await hands.text("#status")), "and the page says why");
}

// What the page throws once, in the midst of a command.
/**
 * @param {string} owner
 * @param {string} name
 */
const throwing = (owner, name) => `{ const owner = ${owner}, act = owner.${name}; owner.${name} = function () { owner.${name} = act; throw new TypeError("a trial"); }; }`;

// An error of the page is told as one, and what is shown after it is what the session holds.
/** @param {Hands} hands */
async function errors(hands) {
  const { browser } = hands;
  for (const [owner, name] of [["rewind.page.session.log", "remove"], ["rewind.page.views.picture", "show"], ["rewind.page.views.panes", "channels"], ["rewind.page.annotating", "findStanding"]]) {
    await hands.story("deadlock");
    await hands.perform("run 100");
    await browser.run(throwing(owner, name));
    await hands.perform("back g0.2#1");
    await hands.until("!rewind.page.isMending");
    await hands.idle();
    assert.ok(/^This page has made an error of its own: TypeError: a trial\. The session goes on, .* reload the page/.test(await hands.text("#status")), `an error in ${name} is told as one of the page, with what to do`);
    assert.ok(!/session is gone/.test(await hands.text("#transcript")), "and not as the end of the session");
    assert.deepEqual(await hands.ids(), await browser.run("rewind.page.session.user.ask('log').then(({ lines }) => lines.map((line) => line.split(' ')[0]))"), "the page has the steps of the program");
    assert.deepEqual(await browser.run("rewind.page.errors.splice(0)"), ["TypeError: a trial"], "it is the only error");
    await hands.perform("redo");
    assert.deepEqual([await browser.run("rewind.page.session.log.kinds"), await hands.text("#status")], [await browser.run("rewind.page.session.user.ask('log').then(({ lines }) => lines.map((line) => line.replace(/^\\S+ /, '')))"), "4 steps taken again."], "and goes on");
  }
}

// A chosen step goes while something of it is drawn.
/** @param {Hands} hands */
async function goingSteps(hands) {
  await hands.story("deadlock");
  await hands.perform("run 100");
  const last = (await hands.ids()).at(-1);
  await hands.browser.run(`rewind.page.pointing.show(${JSON.stringify(last)})`);
  await hands.browser.run("rewind.act(rewind.page, 'fold')");
  const going = `(async ({ page } = rewind) => { const { length } = page.session.log; const done = page.perform("undo");
    while (page.session.log.length === length) await new Promise((go) => setTimeout(go, 0));
    rewind.act(page, "direct"); page.views.overview.drawNow(); page.views.picture.hand.endDrag(); page.views.picture.stepsInView(); await done; })()`;
  await hands.browser.run(going);
  await hands.idle();
  await hands.act("direct");
  await hands.act("fold");
  assert.deepEqual([await hands.browser.run("rewind.page.pointing.about"), await hands.text("#status")], [null, `${last} is taken back.`], "a chosen step may go while it is drawn");
}

/** @param {Hands} hands */
async function journals(hands) {
  await hands.source(LOOP);
  await hands.perform("run 100");
  await hands.browser.run("{ const ask = rewind.page.session.user.askAll; window.asked = []; rewind.page.session.user.askAll = function (commands, shape) { window.asked.push(...commands); return ask.call(this, commands, shape); }; }");
  await hands.perform("step g0.1");
  await hands.point("g0#3");
  await hands.browser.run("rewind.page.past.lookAt(7)");
  await hands.idle();
  const asked = await hands.browser.run("window.asked");
  assert.deepEqual(asked.filter((/** @type {string} */ line) => !/^(about|at) /.test(line)), ["step g0.1"], "the journal has the user's commands alone");
  assert.ok(asked.some((/** @type {string} */ line) => line === "at 101 show g0") && asked.includes("at 7 show g0"), "and queries tell what is shown");
}

const TRUTHS = {
  "a start during a run": openingDuringARun,
  "saved pictures": savedPictures,
  "breakpoints among many goroutines": breakpointsOfManyGoroutines,
  "breakpoints of the page": breakpointsOfThePage,
  "several breakpoints": severalBreakpoints,
  "clauses behind a breakpoint": clausesBehindABreakpoint,
  "clauses in a long log": clausesAtAnyLength,
  "faults in clauses": faultsInClauses,
  "sessions that die": deaths,
  "errors of the page": errors,
  "a chosen step that goes": goingSteps,
  journals,
};

/**
 * @param {TestContext} t
 * @param {TestBrowser} browser
 */
export const truths = (t, browser) => inTurn(t, browser, TRUTHS);
