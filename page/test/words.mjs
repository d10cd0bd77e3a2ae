// What the page says of deadlocks, panics and ends, what follows in the source, and how it holds long texts.

import assert from "node:assert/strict";
import { inTurn } from "./parts.mjs";
import { LOOP } from "./truths.mjs";

/** @param {Hands} hands */
async function states(hands) {
  await hands.story("deadlock");
  await hands.key("r");
  const said = await hands.text("#state");
  assert.ok(said.startsWith("Deadlock: no goroutine is ready. g0 waits to receive from done (g0/c3) at line 18; g0.1 waits to receive from to (g0/c2) at line 5"), "a deadlock is called so");
  assert.ok(said.endsWith("A cycle: g0.1 waits for g0.2, g0.2 waits for g0.1."), "with its cycle");
  assert.ok((await why(hands)).includes("g0.2, which may still send to it, took the last item of to at line 4: x := <-from ('back g0.2#1' takes that back)"), "and who holds what");
  assert.deepEqual(await hands.browser.run("[...document.querySelectorAll('#picture .cycle-word')].map((it) => it.textContent)"), ["g0.1 waits for g0.2", "g0.2 waits for g0.1"], "which is drawn");
  await hands.story("send_on_closed");
  await hands.key("r");
  assert.equal(await hands.text("#state"), "Panic in g0.1#6 at line 5: a send on a closed channel. It depends on g0#6.", "a panic is told with its step, line, meaning and cause");
  assert.equal(await hands.browser.run("/\\bready\\b/.test(document.getElementById('goroutines').innerText)"), false, "nobody is called ready after a panic");
  await hands.story("leaked_goroutine");
  await hands.key("r");
  await hands.act("run");
  assert.ok(/^The program has ended\. .* and 2 are leaks\. g0\.2 would wait for ever at line 4, g0\.4/.test(await hands.text("#state")), "a leak is told");
}

// The first sender of two finds nobody to take its second value.
/** @param {Hands} hands */
async function holders(hands) {
  await hands.source("package main\nfunc count(c chan int) {\n\tc <- 1\n\tc <- 2\n}\nfunc main() {\n\tc, done := make(chan int), make(chan bool)\n\tgo count(c)\n\tprintln(<-c)\n\t<-done\n}\n");
  await hands.perform("run 100");
  assert.equal(await hands.browser.run("document.querySelectorAll('#picture .cycle-word').length"), 0, "no cycle is drawn of one that is a mere holder of a channel");
  assert.ok((await why(hands)).includes("no other goroutine can still receive from c"), "and it is told that nobody can serve");
}

/** @param {Hands} hands */
const why = (hands) => hands.browser.run("document.getElementById('why-lines').textContent");

// The tab Why: steps and goroutines are links, a graph has the cycle, and the step to blame can be taken back.
/** @param {Hands} hands */
async function whyWithLinks(hands) {
  await hands.story("deadlock");
  await hands.key("r");
  await hands.tab("why");
  assert.equal(await hands.browser.run("document.querySelectorAll('#why-graph .cycle').length"), 2, "the graph has the arrows of the cycle");
  assert.deepEqual(await hands.browser.run("[...document.querySelectorAll('#why-graph .name')].map((it) => it.textContent)"), ["g0", "g0.1", "g0.2"], "and those that wait");
  await hands.browser.run("[...document.querySelectorAll('#why-lines .link')].find((it) => it.textContent === 'g0.2#1').click()");
  await hands.idle();
  assert.equal(await hands.browser.run("rewind.page.pointing.pinned"), "g0.2#1", "a step is a link");
  await hands.browser.run("[...document.querySelectorAll('#state .link')].find((it) => it.textContent === 'g0.1').click()");
  await hands.idle();
  assert.deepEqual(await hands.browser.run("[rewind.page.pointing.pinned, rewind.page.chosen]"), ["g0.1#3", "g0.1"], "and a goroutine leads to its last step");
  await hands.act("find-blame");
  const [, blamed] = /^(\S+) is to blame: before it some schedule ends well, and after it none does\.$/.exec(await hands.browser.run("document.getElementById('blame-text').textContent")) || [];
  assert.ok((await hands.ids()).includes(blamed), "the step to blame is named");
  await hands.act("take-blamed");
  assert.ok(!(await hands.ids()).includes(blamed), "and can be taken back");
  assert.equal(await hands.browser.run("document.getElementById('blame-text').textContent"), "", "then nobody is to blame");
  await hands.tab("state");
}

/** @param {Hands} hands */
async function manyGoroutines(hands) {
  await hands.source("package main\nfunc wait(c chan int) { <-c }\nfunc main() {\n\tc := make(chan int)\n\tfor i := 0; i < 40; i++ { go wait(c) }\n\tc <- 1\n}\n");
  await hands.perform("run 400");
  const tops = await hands.browser.run("['console', 'channels', 'goroutines'].map((id) => document.getElementById(id).getBoundingClientRect().top)");
  assert.deepEqual([...tops].sort((one, other) => one - other), tops, "of many goroutines, console and channels stand above the cards");
}

// Main starts 230 goroutines that wait for ever, and either waits too or ends.
/** @param {string} last */
const waiting = (last) => `package main\nfunc wait(c chan int) { <-c }\nfunc main() {\n\tc := make(chan int)\n\tfor i := 0; i < 230; i++ { go wait(c) }\n\t${last}\n}\n`;

// More goroutines than the panes show: what is said of all is true of those too that are not shown.
/** @param {Hands} hands */
async function unseenGoroutines(hands) {
  await hands.source(waiting("<-c"));
  await hands.perform("run 880");
  assert.equal(await hands.browser.run("document.getElementById('state').hidden"), true, "while one of many goroutines is ready, no deadlock is told");
  await hands.perform("run 5000");
  assert.ok((await hands.text("#state")).startsWith("Deadlock: no goroutine is ready. g0 waits"), "a deadlock of many goroutines is told");
  await hands.source("package main\nfunc work() { }\nfunc wait(c chan int) { <-c }\nfunc main() {\n\tc := make(chan int)\n\tfor i := 0; i < 230; i++ { go work() }\n\tfor i := 0; i < 1500; i++ { }\n\tgo wait(c)\n}\n");
  await hands.perform("run 9000");
  assert.equal(await hands.text("#state"), "The program has ended. 1 goroutine was not done when main returned, and 1 is a leak. g0.231 would wait for ever at line 3.", "a leak that is not shown is told");
}

/** @param {Hands} hands */
async function ends(hands) {
  await hands.perform("run 5");
  assert.equal(await hands.text("#status"), "The program has ended before: there is no step to take.", "an ended program is told to have ended before");
}

/** @param {string} selector */
const isInView = (selector) => `(() => { const it = document.querySelector(${JSON.stringify(selector)}).getBoundingClientRect();
  const box = document.querySelector('#editor .CodeMirror-scroll').getBoundingClientRect(); return it.top >= box.top - 2 && it.bottom <= box.bottom + 2; })()`;

/** @param {Hands} hands */
async function places(hands) {
  await hands.story("lost_update");
  assert.ok(await hands.browser.run(isInView(".at-line")), "the source shows where the program stands at first");
  await hands.key("r");
  await hands.point("g0#5");
  assert.ok(await hands.browser.run(isInView(".of-chosen")), "and the line of the step that is pointed at");
  assert.equal((await hands.texts(".chosen-statement")).join("").replace(/\s/g, ""), "goaccount(read,write)", "its whole statement is marked");
  assert.deepEqual([await hands.texts(".chosen-start"), await hands.texts(".chosen-end")], [["go"], [")"]], "in one box");
  await hands.browser.run("rewind.page.views.editor.editor.replaceRange('// more\\n', { line: 2, ch: 0 })");
  assert.ok(await hands.browser.run("!document.getElementById('stale').hidden"), "while the text is changed, the page says so");
  const clipped = "[...document.querySelectorAll('.at-line b')].filter((it) => it.getBoundingClientRect().left < document.querySelector('.CodeMirror-gutters').getBoundingClientRect().left).length";
  await hands.story("deadlock");
  await hands.key("r");
  assert.deepEqual([await hands.texts(".at-line"), await hands.browser.run(clipped)], [["g0.1 g0.2", "g0"], 0], "two names beside a line are whole");
}

// The buttons under the picture are of the chosen step, whatever the pointer passes on its way to them.
/** @param {Hands} hands */
async function byMouse(hands) {
  await hands.story("send_on_closed");
  await hands.key("r");
  await hands.point("g0#6");
  assert.equal(await hands.browser.run("['back', 'earlier', 'later'].every((id) => document.getElementById(id).disabled)"), true, "a step that is only pointed at has no buttons");
  await hands.click(hands.mark("g0#6"));
  const [x, y] = await hands.place("#back");
  for (const id of ["g0.1#5", "g0.1#6"]) await hands.browser.mouse("mouseMoved", ...(await hands.place(hands.mark(id))));
  await hands.browser.click(x, y);
  await hands.idle();
  assert.equal((await hands.lastReply())[0], "> back g0#6", "the button under the picture takes the chosen step back");
}

/** @param {Hands} hands */
async function wordsOfTheShell(hands) {
  await hands.story("deadlock");
  const answers = { why: /'why' is a word of the shell\. Here the tab Why/, "history 3": /here the picture shows/i, "run 1,000": /digits alone, as in 'run 1000'/, nothing: /the help lists them/ };
  for (const [line, said] of Object.entries(answers)) {
    await hands.perform(line);
    assert.ok(said.test(await hands.text("#status")) && said.test((await hands.lastReply()).join(" ")), `'${line}' is answered with where it is to be had`);
  }
  await hands.perform("run 100");
  assert.equal(await hands.text("#status"), "16 steps taken: a deadlock, since no goroutine is ready.", "a run that ends in a deadlock says so");
}

const RUN_SEARCH = "document.getElementById('search').onsubmit(new Event('submit'))";

/** @param {Hands} hands */
async function searches(hands) {
  await hands.story("deadlock");
  await hands.perform("run 100");
  const top = "document.getElementById('picture').getBoundingClientRect().top";
  const before = await hands.browser.run(top);
  await hands.browser.run(`document.getElementById('search-text').value = "from", ${RUN_SEARCH}`);
  await hands.idle();
  assert.deepEqual(await hands.browser.run(`[document.getElementById('found').textContent, document.getElementById('found').clientHeight < 30, ${top}]`), ["4 steps with “from”", true, before], "what was found is told in one line that pushes nothing");
  await hands.story("lost_update");
  assert.deepEqual(await hands.browser.run("[document.getElementById('found').textContent, document.getElementById('search-text').value]"), ["", ""], "and goes with its session");
}

/** @param {Hands} hands */
async function toldStories(hands) {
  await hands.story("deadlock");
  const said = [];
  for (let count = 0; count < 15; count++) {
    await hands.act("next");
    said.push(await hands.text("#about-story"));
  }
  const told = await hands.browser.run("rewind.page.views.stories.commands.map(({ text }) => text).filter((it) => it)");
  assert.deepEqual(said.filter((it) => !told.some((/** @type {string} */ text) => text.toLowerCase() === it.toLowerCase()) && !it.startsWith("That was")), [], "a story keeps the paragraph that it told last");
}

/** @param {Hands} hands */
async function pastStates(hands) {
  await hands.story("lost_update");
  await hands.perform("run 40");
  await hands.browser.run("rewind.page.past.lookAt(8)");
  await hands.until("document.querySelector('#picture .life.later, #picture .asleep.later')");
  const y = "Math.max(...[...document.querySelectorAll('#picture .life:not(.later), #picture .asleep:not(.later)')].map((it) => Number(it.getAttribute('y2'))))";
  assert.ok((await hands.browser.run(y)) < (await hands.browser.run("rewind.page.views.picture.layout.y(8)")), "in a past state the lives of goroutines after it are dimmed");
  assert.equal(await hands.text("#status"), "The panes show a past state. A command acts on the present one.", "and the status tells of it");
  await hands.act("now");
  assert.equal(await hands.text("#status"), "The panes show the present state.", "also of the way back");
}

/** @param {Hands} hands */
async function manyWaiters(hands) {
  await hands.source("package main\nfunc give(c chan int, n int) { c <- n }\nfunc main() {\n\tc := make(chan int)\n\tfor i := 0; i < 60; i++ { go give(c, i) }\n\tfor { }\n}\n");
  await hands.perform("run 600");
  const heights = await hands.browser.run("[...document.querySelectorAll('#channels .queues dt')].map((it) => it.clientHeight)");
  assert.ok(heights.length === 3 && heights.every((/** @type {number} */ it) => it < 30), "the names of queues stand in one line, also beside many waiters");
}

// On a narrow screen the button that takes a step back leaves its mark free.
/** @param {Hands} hands */
async function narrow(hands) {
  await hands.browser.size(390, 844);
  await hands.story("deadlock");
  await hands.perform("run 100");
  const covered = [];
  for (const id of await hands.ids()) {
    await hands.browser.run(`rewind.page.pointing.show(${JSON.stringify(id)})`);
    await hands.idle();
    const over = `(() => { const { x, y, width, height } = document.querySelector('[data-mark="${id}"] .mark').getBoundingClientRect();
      const back = document.getElementById("bar-back").getBoundingClientRect();
      return Boolean(document.querySelector("#picture .take-back")) || !back.height || !document.elementFromPoint(x + width / 2, y + height / 2).closest("#picture"); })()`;
    if (await hands.browser.run(over)) covered.push(id);
  }
  assert.deepEqual(covered, [], "on a narrow screen 'Take back' is in the bar, and nothing covers the mark of its step");
  await hands.browser.size(1280, 800);
}

/** @param {Hands} hands */
async function longTexts(hands) {
  await hands.source(LOOP);
  await hands.perform("run 2000");
  const ids = await hands.ids();
  const row = ids.findIndex((/** @type {string} */ id, /** @type {number} */ at) => at > 900 && ids[at + 1].split("#")[0] !== id.split("#")[0]);
  await hands.browser.run(`rewind.page.pointing.move(${JSON.stringify(ids[row])}, ${row + 1})`);
  await hands.idle();
  const height = await hands.browser.run("document.querySelector('#transcript').lastElementChild.getBoundingClientRect().height");
  assert.ok(height < 400, "a long order is folded");
  const spoken = await hands.browser.run("document.querySelector('#transcript').getAttribute('aria-live')");
  assert.equal(spoken, "off", "and not spoken");
  await hands.perform(`order ${"g0#1 ".repeat(210000)}`);
  assert.ok(/too long for one command/.test(await hands.text("#status")), "a line that is too long is refused in words");
}

// Runs in the page: edges that pass through the mark of another goroutine.
function crossings() {
  const { layout } = window.rewind.page.views.picture;
  /** @param {Edge} edge */
  const endsOf = (edge) => [edge.from, edge.to];
  const marks = layout.log.steps(0, layout.log.length).map((/** @type {Step} */ step) => ({ id: step.id, x: layout.lefts.get(step.goroutine), y: layout.y(layout.rows.place(step.row)) }));
  /** @type {string[]} */
  const found = [];
  const edgesOf = /** @type {NodeListOf<SVGPathElement>} */ (document.querySelectorAll("#picture .edge"));
  const paths = [...edgesOf].filter((it) => it.closest(".drawn"));
  const edges = window.rewind.page.annotating.edges();
  paths.forEach((path, at) => {
    for (let length = 0; length < path.getTotalLength(); length += 2) {
      const { x, y } = path.getPointAtLength(length);
      for (const mark of marks) if (Math.hypot(mark.x - x, mark.y - y) < 5 && !endsOf(edges[at]).includes(mark.id)) found.push(`${endsOf(edges[at])} ${mark.id}`);
    }
  });
  return { paths: paths.length, edges: edges.length, found: [...new Set(found)] };
}

/** @param {Hands} hands */
async function arrows(hands) {
  await hands.browser.size(1280, 2600);
  for (const [name, steps] of Object.entries({ lost_update: 60, deadlock: 60, prime_sieve: 100 })) {
    await hands.story(name);
    await hands.perform(`run ${steps}`);
    const { paths, edges, found } = await hands.browser.run(`(${crossings})()`);
    assert.deepEqual(paths, edges, `all arrows of ${name} are drawn`);
    assert.deepEqual(found, [], `no arrow of ${name} passes through the mark of another goroutine`);
  }
  await hands.browser.size(1280, 800);
}

const WORDS = {
  "holders of a channel": holders,
  "deadlocks, panics and leaks": states,
  "a run behind the end": ends,
  "why, with links": whyWithLinks,
  "goroutines that are not shown": unseenGoroutines,
  "panes beside many goroutines": manyGoroutines,
  "places in the source": places,
  "buttons under the picture": byMouse,
  "words of the shell": wordsOfTheShell,
  searches,
  "what a story tells": toldStories,
  "what is told of past states": pastStates,
  "queues of many waiters": manyWaiters,
  "a narrow screen": narrow,
  "long texts": longTexts,
  "arrows keep clear of marks": arrows,
};

/**
 * @param {TestContext} t
 * @param {TestBrowser} browser
 */
export const saidWords = (t, browser) => inTurn(t, browser, WORDS);
