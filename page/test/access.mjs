// For everybody: what a screen reader gets, keys on any layout, targets, forced colours, paper, and that nothing can be sent.

import assert from "node:assert/strict";
import { inTurn } from "./parts.mjs";

/** @param {Hands} hands */
async function screenReader(hands) {
  const { browser } = hands;
  await hands.story("deadlock");
  await hands.key("r");
  await browser.run("document.getElementById('picture').focus()");
  await hands.key("ArrowUp");
  await browser.call("Accessibility.enable");
  const { nodes } = await browser.call("Accessibility.getFullAXTree");
  const options = nodes.filter((/** @type {any} */ { role, ignored }) => role?.value === "option" && !ignored);
  /**
   * @param {any} node
   * @param {string} name
   */
  const property = (node, name) => node.properties?.find((/** @type {any} */ it) => it.name === name)?.value.value;
  const steps = options.filter((/** @type {any} */ it) => /, row|of 16$/.test(it.name.value));
  assert.ok(steps.length >= 10 && steps.length === (await hands.drawn()).length, "each drawn step is an option");
  assert.ok(steps.some((/** @type {any} */ it) => it.name.value === "g0.2#3, waits to receive, line 5, y := <-to, 16 of 16"), "it is read with its statement and line");
  const box = nodes.find((/** @type {any} */ it) => it.role?.value === "listbox" && /Steps, in the order/.test(it.name.value));
  const active = property(box, "activedescendant");
  assert.ok(active !== undefined || (await browser.run("document.getElementById('picture').getAttribute('aria-activedescendant')")) === "row-15", "the step that arrows reach is the active one");
  assert.deepEqual(await browser.run("[...document.querySelectorAll('[role=option][aria-selected=true]')].map((it) => [it.id, it.getAttribute('aria-posinset'), it.getAttribute('aria-setsize')])"), [["row-15", "16", "16"]], "and is selected");
}

/** @param {Hands} hands */
async function toolbar(hands) {
  const { browser } = hands;
  await hands.story("deadlock");
  const stops = await browser.run("[...document.querySelectorAll('#controls button')].filter((it) => it.tabIndex === 0).length");
  assert.equal(stops, 1, "a toolbar is one stop of the tab key");
  await browser.run("document.getElementById('next').focus()");
  await browser.key("ArrowRight");
  assert.equal(await browser.run("document.activeElement.id"), "step", "arrows go along it");
  await browser.key("End");
  assert.equal(await browser.run("document.activeElement.id"), "moves-more", "to its end");
  await browser.run("document.activeElement.blur()");
}

/** @param {Hands} hands */
async function layouts(hands) {
  const { browser } = hands;
  await hands.story("deadlock");
  await browser.call("Input.dispatchKeyEvent", { type: "keyDown", key: "ы", code: "KeyS", text: "ы" });
  await hands.idle();
  assert.deepEqual(await hands.ids(), ["g0#1"], "the key of a step works on a Cyrillic layout");
}

// Runs in the page: targets of less than 24 pixels.
function smallTargets() {
  const all = [...document.querySelectorAll("button, select, input:not([type=checkbox]), summary, .take-back rect")];
  const small = all.filter((it) => it.getClientRects().length && !it.closest(".CodeMirror, .unseen") && !it.matches(".unseen") && it.getBoundingClientRect().height < 23.5);
  return [...new Set(small.map((it) => `${it.tagName} ${it.id || it.className || it.textContent} ${it.getBoundingClientRect().height}`))];
}

/** @param {Hands} hands */
async function targets(hands) {
  await hands.story("deadlock");
  await hands.key("r");
  await hands.point("g0.1#1");
  assert.deepEqual(await hands.browser.run(`(${smallTargets})()`), [], "targets have 24 pixels");
  assert.equal(await hands.browser.run("document.querySelector('#chosen [aria-live], #chosen-text[aria-live]')"), null, "pointing speaks in no live region");
}

/** @param {Hands} hands */
async function forcedColours(hands) {
  const { browser } = hands;
  await browser.call("Emulation.setEmulatedMedia", { features: [{ name: "forced-colors", value: "active" }] });
  await hands.story("deadlock");
  await hands.key("r");
  /** @param {string} selector */
  const outline = (selector) => `getComputedStyle(document.querySelector(${JSON.stringify(selector)})).outlineStyle`;
  assert.deepEqual(await browser.run(`[${outline(".card.chosen")}, ${outline("#editor .stands")}]`), ["solid", "solid"], "with forced colours the chosen goroutine and its line stand out");
  await browser.call("Emulation.setEmulatedMedia", { features: [], media: "print" });
  assert.equal(await browser.run("[...document.querySelectorAll('#controls, #bar, header, .buttons, #matter button')].filter((it) => it.getClientRects().length).length"), 0, "on paper there are no buttons");
  assert.ok(await browser.run("document.getElementById('picture').scrollHeight <= document.getElementById('picture').clientHeight + 2"), "and the picture is whole");
  await browser.call("Emulation.setEmulatedMedia", { features: [], media: "" });
}

/** @param {Hands} hands */
async function nothingIsSent(hands) {
  const { browser } = hands;
  const tried = await browser.run("fetch('https://example.org/').then(() => 'sent', () => 'refused')");
  assert.equal(tried, "refused", "nothing can be sent");
  const image = await browser.run("new Promise((go) => { const it = new Image(); it.onload = () => go('loaded'); it.onerror = () => go('refused'); it.src = 'https://example.org/a.png'; })");
  assert.equal(image, "refused", "not by a picture either");
  browser.faults.splice(0, browser.faults.length, ...browser.faults.filter((it) => !/example\.org/.test(it)));
}

const ALL = {
  "what a screen reader gets": screenReader,
  "a toolbar by keys": toolbar,
  "keys on other layouts": layouts,
  "targets and live regions": targets,
  "forced colours and paper": forcedColours,
  "nothing can be sent": nothingIsSent,
};

/**
 * @param {TestContext} t
 * @param {TestBrowser} browser
 */
export const access = (t, browser) => inTurn(t, browser, ALL);
