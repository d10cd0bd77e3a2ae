// The page in a frame of another page, from disk: what it shows in 600 by 400 pixels, that it keeps nothing, and the link to the whole.

import assert from "node:assert/strict";
import { writeFileSync } from "node:fs";
import { Hands } from "./hands.mjs";
import { inTurn } from "./parts.mjs";

const [WIDTH, HEIGHT] = [600, 400];

/** @typedef {TestBrowser & {pipe: any}} Piped */

// A browser whose expressions are evaluated in the frame, which stands at the left top of the window.
/**
 * @param {Piped} browser
 * @param {(params: any) => Promise<any>} evaluate
 * @returns {TestBrowser}
 */
function inFrame(browser, evaluate) {
  const run = async (/** @type {string} */ expression) => {
    const said = await evaluate({ expression, awaitPromise: true, returnByValue: true });
    if (said.exceptionDetails) throw new Error(said.exceptionDetails.exception?.description || said.exceptionDetails.text);
    return said.result.value;
  };
  return new Proxy(browser, { get: (of, name) => (name === "run" ? run : /** @type {any} */ (of)[name].bind(of)) });
}

// How expressions are evaluated in the frame of the page that is loaded: in its context, or where the frame is a process of its own, there.
/**
 * @param {Piped} browser
 * @param {any[]} contexts
 * @param {string[]} sessions
 */
async function evaluator(browser, contexts, sessions) {
  const { frameTree } = await browser.call("Page.getFrameTree");
  const id = frameTree.childFrames?.[0].frame.id;
  const contextId = contexts.filter((it) => it.auxData.frameId === id && it.auxData.isDefault).pop()?.id;
  if (contextId) return (/** @type {any} */ params) => browser.call("Runtime.evaluate", { ...params, contextId });
  return (/** @type {any} */ params) => browser.pipe.call("Runtime.evaluate", params, sessions[sessions.length - 1]);
}

// Loads a web page with a frame, and gives hands in it.
/**
 * @param {TestBrowser} browser
 * @param {{page: string, folder: string, hash: string, sandbox?: string}} how
 */
async function framed(browser, { page, folder, hash, sandbox = "" }) {
  const host = `${folder}/frame.html`;
  const frame = `<iframe src="file://${page}${hash}" width="${WIDTH}" height="${HEIGHT}" style="border:0;display:block" ${sandbox}></iframe>`;
  writeFileSync(host, `<!doctype html><title>A course</title><body style="margin:0">${frame}<script>window.started = new Promise((go) => (onload = () => go(true)))</script></body>`);
  const piped = /** @type {Piped} */ (browser);
  /** @type {[any[], string[]]} */
  const [contexts, sessions] = [[], []];
  piped.pipe.listeners.push((/** @type {any} */ { method, params }) => {
    if (method === "Runtime.executionContextCreated") contexts.push(params.context);
    if (method === "Target.attachedToTarget" && params.targetInfo.type === "iframe") sessions.push(params.sessionId);
  });
  await browser.call("Target.setAutoAttach", { autoAttach: true, waitForDebuggerOnStart: false, flatten: true });
  await browser.load(host);
  const hands = new Hands(inFrame(piped, await evaluator(piped, contexts, sessions)));
  await hands.until("window.started instanceof Promise");
  assert.equal(await hands.browser.run("window.started"), true, "the page in the frame starts");
  await hands.idle();
  return hands;
}

// Runs in the frame: of these parts, where they are shown.
function shownParts() {
  const parts = ["header", "#panel", "#time", "#told", "#matter", "#editor", "#picture", "#next", "#step", "#full"];
  return Object.fromEntries(parts.map((name) => {
    const box = /** @type {Element} */ (document.querySelector(name));
    const { x, y, width, height, right, bottom } = box.getBoundingClientRect();
    return [name, box.getClientRects().length ? { x, y, width, height, isIn: right <= innerWidth && bottom <= innerHeight } : null];
  }));
}

/**
 * @param {TestBrowser} browser
 * @param {{page: string, folder: string}} given
 */
async function aStory(browser, given) {
  const hands = await framed(browser, { ...given, hash: "#story=deadlock&embed" });
  const parts = await hands.browser.run(`(${shownParts})()`);
  assert.deepEqual(Object.keys(parts).filter((name) => !parts[name]), ["header", "#panel", "#time"], "a frame shows source, steps and what is asked alone");
  assert.ok(Object.values(parts).every((it) => !it || it.isIn), "each part is whole in the frame");
  assert.ok(parts["#editor"].width > 250 && parts["#picture"].width > 300 && parts["#picture"].height > 200, "source and steps stand beside each other");
  assert.deepEqual(await hands.browser.run("[rewind.page.views.stories.name, rewind.page.session.log.length, location.hash]"), ["deadlock", 0, "#story=deadlock&embed"], "a story begins at its start");
  await hands.act("next");
  await hands.browser.run("window.focus(), document.getElementById('picture').focus()");
  await hands.key("u");
  assert.equal((await hands.ids()).length, 15, "it is told, and a key takes a step back");
  assert.deepEqual(await hands.browser.run("[location.hash, document.documentElement.scrollWidth <= innerWidth, document.documentElement.scrollHeight <= innerHeight]"), ["#story=deadlock&embed", true, true], "the address stays, and nothing is to be scrolled");
  const href = await hands.browser.run("document.getElementById('full').href");
  assert.ok(/rewind[^/]*\.html#s=/.test(href) && !/embed/.test(href), "a link opens the whole page at the session as it stands");
  assert.equal(await hands.browser.run("document.getElementById('full').target"), "_blank");
  await browser.shot(`${given.folder}/frame.png`);
}

/**
 * @param {TestBrowser} browser
 * @param {{page: string, folder: string}} given
 */
async function anExercise(browser, given) {
  const hands = await framed(browser, { ...given, hash: "#story=who_waits&embed" });
  assert.deepEqual([(await hands.ids()).length > 10, /^Not yet: no step is chosen\.$/.test(await hands.text("#task-verdict"))], [true, true], "an exercise stands where its task begins, with its task");
  await hands.browser.run("rewind.page.views.picture.reveal('g0#14')");
  await hands.click(hands.mark("g0#14"));
  assert.equal(await hands.text("#task-verdict"), "Solved.", "and is solved in the frame");
}

// A frame begins with what its address says, and leaves the work that the browser keeps as it is.
/**
 * @param {TestBrowser} browser
 * @param {{page: string, folder: string}} given
 */
async function nothingKept(browser, { page, folder }) {
  await browser.load(page);
  const whole = new Hands(browser);
  await whole.source("package main\nfunc main() { println(7) }\n");
  await new Promise((go) => setTimeout(go, 400));
  const before = await browser.run("localStorage.getItem('rewind')");
  assert.ok(/println\(7\)/.test(before), "the whole page keeps its work");
  await whole.story("philosophers");
  await whole.perform("run 10");
  const frame = await browser.run("rewind.frameOf(rewind.page)");
  const [, hash] = /#([^"]*)"/.exec(frame) || [];
  assert.ok(/^<iframe src="file:[^"]*#s=[\w-]*&amp;embed" width="600" height="400" title="Rewind: philosophers"><\/iframe>$/.test(frame), "the HTML of a frame can be copied");
  await whole.source("package main\nfunc main() { println(8) }\n");
  await new Promise((go) => setTimeout(go, 400));
  const hands = await framed(browser, { page, folder, hash: `#${hash.replaceAll("&amp;", "&")}` });
  assert.equal((await hands.ids()).length, 10, "which shows the session with its steps");
  await hands.perform("run 100");
  await new Promise((go) => setTimeout(go, 400));
  await browser.load(page);
  assert.ok(/println\(8\)/.test(await browser.run("rewind.page.views.editor.text")), "the work of the whole page stays");
}

/**
 * @param {TestBrowser} browser
 * @param {{page: string, folder: string}} given
 */
async function withoutRights(browser, given) {
  const hands = await framed(browser, { ...given, hash: "#story=deadlock&embed", sandbox: 'sandbox="allow-scripts"' });
  await hands.act("run");
  assert.equal((await hands.ids()).length, 16, "a frame that has no store works too");
}

/**
 * @param {TestBrowser} browser
 * @param {{page: string}} given
 */
async function addresses(browser, { page }) {
  const hands = new Hands(browser);
  await browser.load("about:blank").catch(() => {});
  await browser.load(page, "#story=lost_update");
  assert.deepEqual(await browser.run("[rewind.page.views.stories.name, document.body.classList.contains('embed')]"), ["lost_update", false], "an address names a story");
  await browser.run("location.hash = '#story=untie_the_deadlock'");
  await hands.until("rewind.page.views.stories.name === 'untie_the_deadlock' && rewind.page.session.log.length === 16");
  await hands.idle();
  assert.ok(/^Not yet/.test(await hands.text("#task-verdict")), "or an exercise, in an open page too");
  await browser.run("location.hash = '#story=nonsense'");
  await hands.until("/There is no story “nonsense” in this page/.test(document.getElementById('status').textContent)");
  assert.equal(await browser.run("rewind.page.views.stories.name"), "untie_the_deadlock", "a name that is none is told, and nothing is lost");
}

/**
 * @param {TestContext} t
 * @param {TestBrowser} browser
 * @param {{page: string, folder: string}} given
 */
export const embedded = (t, browser, given) =>
  inTurn(t, browser, {
    "a story": () => aStory(browser, given),
    "an exercise": () => anExercise(browser, given),
    "nothing is kept": () => nothingKept(browser, given),
    "a frame without rights": () => withoutRights(browser, given),
    "stories by their addresses": () => addresses(browser, given),
  });
