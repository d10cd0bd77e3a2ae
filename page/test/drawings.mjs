// What is drawn: the operations of one channel, labels and arrows, files of pictures, and received values.

import assert from "node:assert/strict";
import { inTurn } from "./parts.mjs";
import { LOOP } from "./truths.mjs";

// The picture of the operations of one channel: where it was made, and what was done with it, with the arrows between these steps.
/** @param {Hands} hands */
async function oneChannel(hands) {
  const { browser } = hands;
  const menu = "document.querySelector('#columns-list select')";
  await hands.story("deadlock");
  await hands.key("r");
  await hands.idle();
  assert.deepEqual(await browser.run(`[...${menu}.options].map((it) => it.value)`), ["", "g0/c1", "g0/c2", "g0/c3"], "the channels of the session can be chosen");
  for (const [channel, steps, arrows] of [["g0/c1", ["g0#1", "g0#4", "g0.1#1", "g0.2#3"], 1], ["g0/c3", ["g0#6", "g0#10"], 0]]) {
    await browser.run(`${menu}.value = "${channel}", ${menu}.dispatchEvent(new Event("change"))`);
    await hands.idle();
    assert.deepEqual(await hands.drawn(), steps, `the operations of ${channel} are shown alone`);
    assert.deepEqual(await browser.run("[...document.querySelectorAll('#picture .drawn .edge')].length"), arrows, "with the arrows between them");
  }
  await hands.act("undo");
  await browser.run(`${menu}.value = "", ${menu}.dispatchEvent(new Event("change"))`);
  await hands.idle();
  assert.ok((await hands.drawn()).length > 10, "then all are");
}

/** @param {Hands} hands */
async function pictures(hands) {
  const { browser } = hands;
  await hands.story("deadlock");
  await hands.key("r");
  assert.deepEqual(await browser.run("[...document.querySelectorAll('#picture .of')].map((it) => it.textContent)"), ["main", "transfer", "transfer"], "names of columns have their functions");
  assert.ok((await browser.run("document.querySelector('[data-step=\"g0.2#3\"] .kind').textContent")).startsWith("y := <-to"), "labels are statements");
  await browser.run("document.getElementById('search-text').value = 'take', document.getElementById('search').onsubmit(new Event('submit'))");
  await hands.idle();
  assert.deepEqual([await hands.text("#found"), await hands.drawn(".found[data-step]")], ["2 steps with “take”", ["g0.1#1", "g0.2#1"]], "a search marks what it finds");
  await hands.act("direct");
  assert.deepEqual(await hands.drawn(".cause[data-step]"), ["g0#8"], "direct causes alone get a colour");
  await hands.act("direct");
  await browser.run("document.getElementById('search-text').value = '', document.getElementById('search').onsubmit(new Event('submit'))");
  await hands.source(LOOP);
  await hands.perform("run 200");
  const rows = "rewind.page.views.picture.rows.length";
  const all = await browser.run(rows);
  await hands.act("fold");
  assert.ok((await browser.run(rows)) <= all, "own statements fold");
  await hands.act("fold");
  await browser.run("rewind.page.views.columns.toggle('g0.1')");
  await hands.idle();
  assert.deepEqual([...new Set((await hands.drawn()).map((/** @type {string} */ id) => id.split("#")[0]))], ["g0"], "a goroutine can be hidden");
  await browser.run("rewind.page.views.columns.toggle('g0.1')");
  await hands.story("deadlock");
  await hands.key("r");
  await browser.run("rewind.page.views.columns.toggleOrder()");
  await hands.idle();
  assert.deepEqual(await browser.run("[...document.querySelectorAll('#picture .drawn .edge')].map((it) => it.getAttribute('class'))"), ["edge start", "edge start"], "the arrows of the order of waiting can be left out");
  await browser.run("rewind.page.views.columns.toggleOrder()");
  await savedPictures(browser);
}

// Pictures of the deadlock as files.
/** @param {TestBrowser} browser */
async function savedPictures(browser) {
  const png = await browser.run("rewind.savePicture(rewind.page).then((text) => rewind.asPng(text)).then((it) => [it.type, it.size > 10000])");
  assert.deepEqual(png, ["image/png", true], "a picture can be saved as PNG");
  assert.ok((await browser.run("rewind.savePicture(rewind.page)")).includes("order of waiting"), "a saved picture has a legend");
  const delays = `rewind.savePicture(rewind.page).then((text) => { const ids = rewind.page.session.log.steps(0, Infinity).map(({ id }) => id);
    const drawn = new DOMParser().parseFromString(rewind.moving(text, ids), "image/svg+xml");
    const late = (name) => [...drawn.querySelectorAll("[data-" + name + "]")].map((it) => [it.getAttribute("data-" + name), parseFloat(it.style.animationDelay)]);
    return { isWhole: !drawn.querySelector("parsererror"), steps: late("step"), marks: late("mark"), arrows: late("to") }; })`;
  const { isWhole, steps, marks, arrows } = await browser.run(delays);
  const known = new Map(steps);
  assert.ok(isWhole && steps.length > 3 && arrows.length > 1, "a moving picture is whole");
  assert.ok(steps.every((/** @type {[string, number]} */ [, delay], /** @type {number} */ at) => !at || delay > steps[at - 1][1]), "its steps appear one after another");
  assert.ok([...marks, ...arrows].every(([id, delay]) => known.get(id) === delay), "each with its mark and the arrows into it");
  const cut = `rewind.savePicture(rewind.page).then((text) => { const host = document.createElement("div"); host.innerHTML = text; document.body.append(host);
    const svg = host.querySelector("svg"); const { right } = svg.getBoundingClientRect();
    const found = [...svg.querySelectorAll("text")].filter((it) => it.getBoundingClientRect().right > right).map((it) => it.textContent); host.remove(); return found; })`;
  assert.deepEqual(await browser.run(cut), [], "no word of a saved picture is cut");
}

// Values of several kinds that go hand to hand, through buffers, by selects and after a close.
const MESSAGES = `package main

func give(a chan int, b chan bool, cc chan chan int, own chan int) {
	a <- 7
	b <- true
	cc <- own
	{
		d := own
		d <- 9
	}
	select {
	case a <- 1:
	case b <- false:
	}
	close(own)
}

func main() {
	a, b, cc, own := make(chan int), make(chan bool), make(chan chan int), make(chan int, 1)
	go give(a, b, cc, own)
	println(<-a, <-b)
	c := <-cc
	println(<-c)
	select {
	case <-a:
	case x := <-b:
		println(x)
	}
	println(<-c)
}
`;

const FIRST = ["g0#7 | println(<-a, <-b) | <-a ← 7", "g0#8 | println(<-a, <-b) | <-b ← true"];
const REST = ["g0#10 | c := <-cc | ← g0/c4", "g0#12 | println(<-c) | ← 9", "g0.1#6 | case a <- 1 | ", "g0#14 | case <-a | ← 1"];

// The labels of the steps of some kinds, with what they received.
const LABELS = `[...document.querySelectorAll("#picture [data-step]")].map((it) => [it.dataset.step, ...["kind", "received"].map((part) => it.querySelector("." + part)?.textContent.trim() || "")])
  .filter(([, kind, received]) => received || /^case|^select/.test(kind)).map((it) => it.join(" | "))`;

/** @param {Hands} hands */
async function messages(hands) {
  const { browser } = hands;
  await browser.size(1280, 1600);
  await hands.act("smaller"); // so that the labels of the longest statements are whole
  await hands.story("send_on_closed");
  await hands.key("r");
  assert.equal(await browser.run("document.querySelector('[data-step=\"g0#4\"] .received').textContent.trim()"), "← 0", "the step that takes a message has its value");
  await hands.story("lost_update");
  await hands.perform("run 100");
  const waited = ["g0#8 | <-done | ← true", "g0#9 | <-done | ← true", 'g0#10 | println("balance", <-read) | ← 20'];
  assert.deepEqual((await browser.run(LABELS)).filter((/** @type {string} */ it) => it.startsWith("g0#")), waited, "a value that ended a wait stands at the wait");
  assert.ok((await browser.run(LABELS)).includes("g0.1#3 | case read <- balance | "), "a select shows the case that it took");
  await hands.perform("back g0.3#4");
  assert.deepEqual((await browser.run(LABELS)).filter((/** @type {string} */ it) => it.startsWith("g0#")), waited.slice(0, 1), "and goes with its sender");
  assert.ok(/g0#8, waits to receive, line 24, <-done, received true,/.test(await browser.run("document.querySelector('[data-step=\"g0#8\"]').getAttribute('aria-label')")), "it is spoken too");
  await hands.source(MESSAGES);
  await hands.perform("run 100");
  assert.deepEqual(await browser.run(LABELS), [...FIRST, ...REST], "each value stands at its part, and fits its channel");
  await hands.perform("back g0.1#1");
  await hands.perform("step g0");
  await hands.perform("run 100");
  assert.deepEqual([await browser.run(LABELS), await hands.browser.run("rewind.page.session.log.kindOf('g0#7')")], [[...FIRST, ...REST], "recv-wait"], "also where the receiver waits first");
  await hands.source(MESSAGES.replace("d := own", "a := own").replace("d <- 9", "a <- 9"));
  await hands.perform("run 100");
  assert.deepEqual(await browser.run(LABELS), [...FIRST, ...REST], "also where two variables that hold channels have one name");
  await hands.act("larger");
  await browser.size(1280, 800);
}

const DRAWINGS = {
  "the operations of one channel": oneChannel,
  pictures,
  "received values": messages,
};

/**
 * @param {TestContext} t
 * @param {TestBrowser} browser
 */
export const drawings = (t, browser) => inTurn(t, browser, DRAWINGS);
