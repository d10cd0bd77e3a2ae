// Room and rank: how much of a window is the picture, that nothing moves while a story is told, and what a person meets who has never
// seen the page.

import assert from "node:assert/strict";
import { inTurn } from "./parts.mjs";

const [WIDE, TALL] = [1280, 720];
const MOST_CONTROLS = 24; // that are seen at once, where 42 were
const PICTURE = { width: 0.6, height: 0.65 }; // of the window
const LETTERS = 64; // of a line of the source
const TYPE = 12.5; // pixels
const SECONDS = 10;

/** @param {string} selector */
const boxOf = (selector) => `(({ x, y, width, height, right, bottom } = document.querySelector(${JSON.stringify(selector)}).getBoundingClientRect()) => ({ x, y, width, height, right, bottom }))()`;

// Loads the page anew, in a browser that has kept its work or has never shown it.
/**
 * @param {TestBrowser} browser
 * @param {boolean} isNew
 */
async function reload(browser, isNew) {
  await browser.run("history.replaceState(null, '', location.href.split('#')[0])");
  const { identifier } = await browser.call("Page.addScriptToEvaluateOnNewDocument", { source: isNew ? "localStorage.clear()" : "" });
  await browser.run("window.isOld = true");
  await browser.call("Page.reload");
  const isThere = () => browser.run("!window.isOld && window.started instanceof Promise").catch(() => false);
  while (!(await isThere())) await new Promise((go) => setTimeout(go, 25));
  await browser.run("window.started");
  await browser.call("Page.removeScriptToEvaluateOnNewDocument", { identifier });
}

// The first view: a deadlock that has happened, a step of it that is chosen, and one button that takes it back.
/** @param {Hands} hands */
async function firstView(hands) {
  const { browser } = hands;
  await browser.size(WIDE, TALL);
  const began = performance.now();
  await reload(browser, true);
  await hands.until("!document.getElementById('tour').hidden");
  await hands.idle();
  const seen = await browser.run("[rewind.page.pointing.pinned, document.getElementById('headline').textContent, document.getElementById('back').textContent]");
  assert.deepEqual(seen, ["g0.2#1", "Deadlock: g0.1 and g0.2 wait for each other.", "Take these 4 back"], "the page opens on a deadlock with a chosen step");
  assert.deepEqual(await hands.drawn(".consequence[data-step]"), ["g0.1#3", "g0.2#2", "g0.2#3"], "what goes with it is orange");
  assert.ok((await hands.drawn(".cause[data-step]")).length > 5, "what it is because of is blue");
  assert.deepEqual(await hands.drawn(".stuck[data-step]"), ["g0#10", "g0.1#3", "g0.2#3"], "and the steps that wait are red");
  const order = await browser.run("[...document.querySelectorAll('header select, header button')].filter((it) => it.getClientRects().length).slice(0, 2).map(({ id }) => id)");
  assert.deepEqual(order, ["story", "own"], "'Your own program' is the second control in view");
  await hands.click("#back");
  const seconds = (performance.now() - began) / 1000;
  assert.deepEqual([(await hands.ids()).length, await browser.run("document.getElementById('tour').hidden")], [12, true], "one click takes the step back, and ends the tour");
  assert.ok(seconds < SECONDS, `the first step is taken back in ${seconds.toFixed(1)} seconds and one click`);
}

/** @param {Hands} hands */
async function tour(hands) {
  const { browser } = hands;
  await reload(browser, true);
  await hands.until("!document.getElementById('tour').hidden");
  const said = [];
  for (let bubble = 0; bubble < 3; bubble++) {
    said.push(await browser.run("document.getElementById('tour-at').textContent"));
    assert.ok(await browser.run(`((tour = ${boxOf("#tour")}) => tour.x >= 0 && tour.y >= 0 && tour.right <= innerWidth && tour.bottom <= innerHeight)()`), "each bubble is whole in the window");
    await browser.run("document.getElementById('tour-next').click()");
  }
  assert.deepEqual([said, await browser.run("document.getElementById('tour').hidden")], [["1 of 3", "2 of 3", "3 of 3"], true], "the tour has three bubbles");
  await reload(browser, false);
  await hands.idle();
  await new Promise((go) => setTimeout(go, 300));
  assert.equal(await browser.run("document.getElementById('tour').hidden"), true, "and does not come twice by itself");
  await browser.run("document.getElementById('tour-again').click()");
  await hands.until("!document.getElementById('tour').hidden");
  await browser.key("Escape");
  assert.equal(await browser.run("document.getElementById('tour').hidden"), true, "it can be asked for, and left at any moment");
}

/** @param {Hands} hands */
async function room(hands) {
  const { browser } = hands;
  await browser.size(WIDE, TALL);
  await hands.story("deadlock");
  await hands.perform("run 100");
  await browser.run("rewind.page.pointing.show('g0.2#1')");
  await hands.idle();
  const { width, height } = await browser.run(boxOf("#picture-frame"));
  assert.ok(width >= PICTURE.width * WIDE && height >= PICTURE.height * TALL, `with a step chosen the picture has ${width} by ${height} of ${WIDE} by ${TALL} pixels`);
  const [letters, type] = await browser.run(`(({ editor } = rewind.page.views.editor) => { const { width } = editor.getScrollInfo(), { clientWidth } = editor.getScrollInfo();
    return [Math.floor((Math.min(width, clientWidth) - 4) / editor.defaultCharWidth()), parseFloat(getComputedStyle(editor.getWrapperElement()).fontSize)]; })()`);
  assert.ok(letters >= LETTERS && type >= TYPE, `a line of the source has ${letters} letters of ${type} pixels`);
  const controls = await browser.run("[...document.querySelectorAll('button, select, input')].filter((it) => it.getClientRects().length && !it.closest('.CodeMirror, .unseen, .card') && !it.matches('.unseen')).length");
  assert.ok(controls <= MOST_CONTROLS, `${controls} controls are in view`);
  const parts = await browser.run(`[${["#matter", "#picture-frame", "#time", "#next", "#moves"].map(boxOf)}].map(({ x, y }) => [x, y])`);
  assert.ok(parts.every((/** @type {number[]} */ [, y], /** @type {number} */ at) => !at || at === 4 || y > parts[at - 1][1]) && parts[3][0] < parts[4][0], "the row, the picture, time, and below it the story at one end and steps at the other");
  const crossed = "((left) => [...document.querySelectorAll('#picture .edge')].filter((it) => it.getBoundingClientRect().right > left).length)(document.querySelector('#picture .lines').getBoundingClientRect().left)";
  assert.equal(await browser.run(crossed), 0, "no arrow reaches the text");
}

// How much of the page has moved by itself since the shifts were first looked for.
const WATCHING = "(() => { window.shifts = []; new PerformanceObserver((list) => window.shifts.push(...list.getEntries().map((it) => it.value))).observe({ type: 'layout-shift' }); })()";

/** @param {Hands} hands */
async function nothingMoves(hands) {
  const { browser } = hands;
  const stories = await browser.run("rewind.page.views.stories.stories.filter(({ told }) => told.length > 1).slice(0, 7).map(({ name }) => name)");
  for (const name of stories) {
    await hands.story(name);
    await browser.run(WATCHING);
    while (!(await browser.run("document.getElementById('next').disabled"))) await hands.act("next");
    assert.deepEqual(await browser.run("window.shifts"), [], `nothing moves over the story ${name}`);
  }
}

/** @param {Hands} hands */
async function emptyPicture(hands) {
  const { browser } = hands;
  await hands.story("send_on_closed");
  assert.deepEqual(await browser.run("['ghost', 'run-it', 'tell-it'].map((id) => Boolean(document.getElementById(id).getClientRects().length))"), [true, true, true], "an empty picture shows a ghost of what will come, and what to press");
  await hands.click("#run-it");
  assert.deepEqual([await browser.run("document.getElementById('ghost').hidden"), (await hands.ids()).length], [true, 13], "which runs it");
  assert.equal(await hands.text("#headline strong"), "Panic in g0.1#6 at line 5:", "the words that lead stand out");
  await browser.run("rewind.act(rewind.page, 'own'), 0");
  await hands.idle();
  assert.ok(await browser.run("document.activeElement.closest('.CodeMirror') && rewind.page.views.stories.name === 'program' && !document.getElementById('ghost').hidden"), "a program of one's own has the cursor, and a ghost");
  await browser.run("document.activeElement.blur()");
}

/** @param {Hands} hands */
async function exercises(hands) {
  const { browser } = hands;
  await hands.story("first_line");
  assert.equal(await hands.text("#task-verdict"), "Not yet: it has printed nothing, and should have printed “7 2”, and no step was taken.", "an exercise says what is missing");
  for (let count = 0; count < 4; count++) await hands.perform("step g0");
  assert.deepEqual([await hands.text("#task-verdict"), await hands.text("#next-task"), await browser.run("document.getElementById('story').selectedOptions[0].textContent")], ["Solved.", "Next exercise: take a printed line back", "✓ print the first line"], "a solved one is marked, and the next one offered");
  await hands.click("#next-task");
  assert.equal(await browser.run("rewind.page.views.stories.name"), "unprint", "which opens it");
}

/** @param {Hands} hands */
async function byKeys(hands) {
  const { browser } = hands;
  await browser.run("document.activeElement.blur(), scrollTo(0, 0)");
  await hands.story("deadlock");
  await hands.perform("run 100");
  await browser.run("document.getElementById('skip').focus()");
  assert.ok(await browser.run(`(${boxOf("#skip")}).y >= 0`), "a link to skip to the picture is seen when it has the focus");
  await browser.run("document.getElementById('skip').click()");
  assert.equal(await browser.run("document.activeElement.id"), "picture", "and leads there");
  for (const key of ["ArrowUp", "ArrowUp", "Enter"]) await hands.key(key);
  assert.equal(await browser.run("rewind.page.views.tabs.name"), "back", "what is said of a chosen step comes by itself");
  await browser.run("document.getElementById('tab-back').focus()");
  await browser.key("ArrowRight");
  assert.deepEqual(await browser.run("[document.activeElement.id, document.getElementById('console-pane').hidden, [...document.querySelectorAll('#tabs [role=tab]')].filter((it) => it.tabIndex === 0).length]"), ["tab-console", false, 1], "arrows go along the tabs, which are one stop");
  await browser.run("document.getElementById('share').focus()");
  await browser.key("Enter");
  assert.ok(await browser.run("!document.getElementById('share-menu').hidden"), "a menu opens by a key");
  await browser.key("Escape");
  assert.deepEqual(await browser.run("[document.getElementById('share-menu').hidden, document.activeElement.id]"), [true, "share"], "and closes by one");
  await browser.run("document.activeElement.blur()");
  await hands.key("b");
  await hands.key("t");
  assert.ok((await browser.run("rewind.page.views.tabs.name")) !== "console", "a key goes along the tabs from everywhere");
}

// Small windows: one part at once, and a bar below with what is wanted most.
/** @param {Hands} hands */
async function small(hands) {
  const { browser } = hands;
  for (const [width, height] of [[390, 844], [820, 1180], [640, 360]]) {
    await browser.size(width, height);
    await hands.story("deadlock");
    await hands.perform("run 100");
    await browser.run("rewind.page.pointing.show('g0.2#1')");
    for (const [view, part] of [["source", "#editor"], ["state", "#panel"], ["picture", "#picture-frame"]]) {
      await browser.run(`document.getElementById("view-${view}").click()`);
      await hands.idle();
      const shown = await browser.run("['#editor', '#panel', '#picture-frame'].filter((it) => document.querySelector(it).getClientRects().length)");
      const buttons = await browser.run(`["next", "undo", "step", "bar-back"].map((id) => document.getElementById(id).getBoundingClientRect()).filter(({ height, bottom }) => height >= 32 && bottom <= innerHeight).length`);
      assert.deepEqual([shown, buttons], [[part], 4], `at ${width} by ${height} '${view}' is shown alone, above a bar with four buttons`);
    }
    assert.deepEqual(await browser.run("[document.documentElement.scrollHeight <= innerHeight, document.documentElement.scrollWidth <= innerWidth]"), [true, true], "and the page need not be scrolled");
    await hands.click("#bar-back");
    assert.equal((await hands.ids()).length, 12, "a tap takes the chosen step back");
  }
  const before = await browser.run("rewind.page.views.picture.size");
  const touch = (/** @type {string} */ type, /** @type {number[][]} */ points) => browser.call("Input.dispatchTouchEvent", { type, touchPoints: points.map(([x, y], id) => ({ x, y, id })) });
  await browser.size(390, 844);
  await browser.call("Emulation.setTouchEmulationEnabled", { enabled: true, maxTouchPoints: 2 });
  await touch("touchStart", [[150, 400], [250, 400]]);
  for (let apart = 10; apart <= 60; apart += 10) await touch("touchMove", [[150 - apart, 400], [250 + apart, 400]]);
  await touch("touchEnd", []);
  await browser.call("Emulation.setTouchEmulationEnabled", { enabled: false });
  assert.ok((await browser.run("rewind.page.views.picture.size")) > before, "two fingers make the picture larger");
  await browser.run("rewind.page.views.picture.zoom(-1)");
  await browser.size(WIDE, 800);
}

const ROOM = {
  "the first view": firstView,
  "a tour of three bubbles": tour,
  "room and rank": room,
  "nothing moves over a story": nothingMoves,
  "an empty picture": emptyPicture,
  "what is missing of an exercise": exercises,
  "by keys": byKeys,
  "small windows": small,
};

/**
 * @param {TestContext} t
 * @param {TestBrowser} browser
 */
export const roomAndRank = (t, browser) => inTurn(t, browser, ROOM);
