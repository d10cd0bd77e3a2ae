// Real Go that is refused: it is carried over by what lies beside the page, shown beside what comes of it, and run.

import assert from "node:assert/strict";
import { existsSync } from "node:fs";
import { inTurn } from "./parts.mjs";

const REAL = `package main

import (
	"fmt"
	"sync"
)

func main() {
	var mu sync.Mutex
	count := 0
	done := make(chan bool)
	go func() {
		mu.Lock()
		count++
		mu.Unlock()
		done <- true
	}()
	<-done
	fmt.Println("count", count)
}
`;
const LEFT = 'package main\n\nimport "fmt"\n\nvar half = 0.5\n\nfunc main() {\n\tdefer recover()\n\tfmt.Println(half)\n}\n';

/** @param {Hands} hands */
async function carried(hands) {
  await hands.source(REAL);
  await hands.click(".refusal-note .carry");
  await hands.until("document.querySelector('#carry-dialog').open");
  assert.equal(await hands.text("#carry-text"), "The program means the same.");
  assert.equal(await hands.browser.run("document.querySelector('#carry-before').textContent"), REAL, "the source stands beside what is run");
  await hands.click("#carry-use");
  await hands.key("r");
  assert.ok((await hands.text("#console")).includes("count 1"), "what was carried over runs");
  assert.equal(await hands.browser.run("rewind.page.views.editor.text"), REAL, "the source stays in view");
  await hands.click("#carried");
  await hands.until("document.querySelector('#carry-dialog').open");
  assert.ok((await hands.browser.run("document.querySelector('#carry-after').textContent")).includes("mu <- struct{}{}"), "what is run is shown once more");
  await hands.browser.run("document.querySelector('#carry-dialog').close()");
}

// The two locks of this program are taken in two orders.
const LOCKS = `package main

import "sync"

func main() {
	var a, b sync.Mutex
	var wg sync.WaitGroup
	wg.Add(2)
	go func() {
		defer wg.Done()
		a.Lock()
		b.Lock()
		b.Unlock()
		a.Unlock()
	}()
	go func() {
		defer wg.Done()
		b.Lock()
		a.Lock()
		a.Unlock()
		b.Unlock()
	}()
	wg.Wait()
}
`;

/** @param {Hands} hands */
async function deadlock(hands) {
  await hands.source(LOCKS);
  const began = Date.now();
  await hands.click(".refusal-note .carry");
  await hands.until("document.querySelector('#carry-dialog').open");
  assert.ok(Date.now() - began < 1000, "what was loaded once carries over in a second");
  await hands.click("#carry-use");
  await hands.act("search-all");
  await hands.until("/deadlock/.test(document.querySelector('#headline').textContent)");
  await hands.act("follow");
  await hands.until("/wait for each other/.test(document.querySelector('#headline').textContent)");
  const lines = await hands.browser.run("document.querySelector('#why-lines').textContent");
  assert.ok(/at line 12: b.Lock\(\)/.test(lines), lines);
  assert.ok(/at line 19: a.Lock\(\)/.test(lines), lines);
  const marked = await hands.browser.run("[...document.querySelectorAll('.at-line')].map((it) => it.textContent).sort().join()");
  assert.equal(marked, "g0,g0.1,g0.2", "each goroutine stands at a line of the source");
  assert.ok(await hands.browser.run("[...document.querySelectorAll('#picture-frame *')].some((it) => it.textContent === 'b.Lock()')"), "the picture has the source's text");
}

// A breakpoint at a line of the source, in a function that stands elsewhere in what is run. A text that was carried over once opens at once.
/** @param {Hands} hands */
async function breakpoint(hands) {
  await hands.source(LOCKS);
  await hands.browser.run("rewind.page.views.editor.on.toggleBreak(13)");
  await hands.until("rewind.page.session.breakpoints.size === 1");
  assert.deepEqual(await hands.browser.run("rewind.page.views.editor.breaks"), [13], "the mark stands at the line of the source");
  await hands.key("r");
  await hands.until("/breakpoint/.test(document.querySelector('#headline').textContent)");
  assert.ok(/breakpoint in line 13/.test(await hands.text("#headline")), "the line of the source is told");
}

// What was carried over is run again behind a reload, with its steps and its breakpoint.
/** @param {Hands} hands */
async function reload(hands) {
  const { browser } = hands;
  await hands.source(LOCKS);
  await browser.run("rewind.page.views.editor.breaks.includes(13) || rewind.toggleBreak(rewind.page, 13)");
  await hands.perform("run 5");
  await new Promise((go) => setTimeout(go, 400)); // until the work is kept
  await browser.call("Page.reload");
  await hands.until("window.started");
  await browser.run("window.started");
  await hands.idle();
  assert.equal(await browser.run("rewind.page.views.editor.text"), LOCKS, "the source is there");
  assert.equal(await browser.run("rewind.page.session.log.length"), 5, "and the steps");
  assert.deepEqual(await browser.run("rewind.page.views.editor.breaks"), [13], "and the breakpoint");
  assert.ok(await browser.run("Boolean(rewind.page.session.carried)"), "of what it was carried over to");
}

/** @param {Hands} hands */
async function left(hands) {
  await hands.source(LEFT);
  await hands.click(".refusal-note .carry");
  await hands.until("document.querySelector('#carry-dialog').open");
  assert.equal(await hands.text("#carry-text"), "2 places of the source cannot be carried over:");
  assert.ok((await hands.text("#carry-notes")).includes("Line 5: the number 0.5 is not carried"));
  assert.ok(await hands.browser.run("document.querySelector('#carry-use').hidden"), "what is not carried over is not run");
  await hands.browser.run("document.querySelector('#carry-dialog').close()");
}

// A text that is handed on is a number in what is run.
const SAYS = `package main

import (
	"errors"
	"fmt"
)

func ask(name string, n int, err error, out chan string) {
	out <- name
	out <- fmt.Sprintf("%s-%d", name, n)
	fmt.Println(err)
}

func main() {
	out := make(chan string, 1)
	ask("bob", -2, errors.New("none left"), out)
}
`;

/** @param {Hands} hands */
async function texts(hands) {
  await hands.source(SAYS);
  await hands.click(".refusal-note .carry");
  await hands.until("document.querySelector('#carry-dialog').open");
  await hands.click("#carry-use");
  await hands.key("r");
  const [variables, channels] = [await hands.text("#goroutines"), await hands.text("#channels")];
  for (const shown of ['name = "bob"', "n = -2", 'err = "none left"', 'waits to send "bob--2" to out']) assert.ok(variables.includes(shown), `${shown} stands in ${variables}`);
  for (const shown of ['"bob"', 'g0="bob--2"']) assert.ok(channels.includes(shown), `${shown} stands in ${channels}`);
  const picture = await hands.browser.run("document.querySelector('#picture-frame').textContent");
  assert.ok(picture.includes('→ "bob" to out'), `the picture has the text that is handed over: ${picture}`);
}

// Ordinary Go without packages is offered, too.
/** @param {Hands} hands */
async function unpackaged(hands) {
  await hands.source("package main\nfunc main() {\n\tdone := make(chan bool)\n\tgo func() { done <- true }()\n\tprintln(<-done)\n}\n");
  await hands.click(".refusal-note .carry");
  await hands.until("document.querySelector('#carry-dialog').open");
  await hands.click("#carry-use");
  await hands.key("r");
  assert.ok((await hands.text("#console")).includes("true"), "a function literal is carried over");
}

/** @param {Hands} hands */
async function plain(hands) {
  await hands.source("package main\nfunc main() { x }\n");
  assert.ok(await hands.browser.run("!document.querySelector('.refusal-note .carry')"), "what the language has has nothing to carry");
}

/**
 * @param {TestContext} t
 * @param {TestBrowser} browser
 * @param {string} page
 */
export async function realGo(t, browser, page) {
  if (!existsSync(page.replace(/[^/]*$/, "rewind-carry.js"))) return t.skip("'make carry-page' makes what carries Go over");
  await inTurn(t, browser, { "carried and run": carried, "a deadlock": deadlock, "a breakpoint": breakpoint, "a reload": reload, "texts for numbers": texts, "without packages": unpackaged, "what is left": left, "nothing to carry": plain });
}
