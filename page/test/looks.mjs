// Pictures of the page for people to look at, and what can be measured of each. Nothing is wider than the window, every text has the
// contrast that it needs, and its parts stand where they stood when the picture was looked at and found good (`shapes.json`, which
// `SHAPES=write` makes anew).

import assert from "node:assert/strict";
import { readFileSync, writeFileSync } from "node:fs";
import { Hands } from "./hands.mjs";
import { SCENES } from "./scenes.mjs";
import { shapesOf } from "./shapes.mjs";

const ENOUGH = 4.5;
const SHAPES = new URL("shapes.json", import.meta.url).pathname;
const NEAR = 12; // pixels: so far letters of another face may move a part

// Runs in the page: texts whose colour is too close to what is behind them.
/** @param {number} enough */
function faintTexts(enough) {
  /** @param {string} text */
  const parts = (text) => (text.match(/[\d.]+/g) || []).map(Number);
  /** @param {number} channel */
  const light = (channel) => (channel <= 10 ? channel / 3294 : ((channel / 255 + 0.055) / 1.055) ** 2.4);
  /** @param {number[]} given */
  const brightness = ([red, green, blue]) => 0.2126 * light(red) + 0.7152 * light(green) + 0.0722 * light(blue);
  /**
   * @param {Element} it
   * @returns {number[]}
   */
  const behind = (it) => {
    const colour = parts(getComputedStyle(it).backgroundColor);
    return (colour.length === 4 && !colour[3]) || !colour.length ? (it.parentElement ? behind(it.parentElement) : [255, 255, 255]) : colour;
  };
  /** @param {Element} it */
  const contrast = (it) => {
    const style = getComputedStyle(it);
    const [one, other] = [brightness(parts(it.closest("svg") ? style.fill : style.color)), brightness(behind(it))];
    return (Math.max(one, other) + 0.05) / (Math.min(one, other) + 0.05);
  };
  /** @param {Element} it */
  const hasText = (it) => [...it.childNodes].some((node) => node.nodeType === 3 && node.textContent?.trim());
  /** @param {Element} it */
  const shown = (it) => it.getClientRects().length && !it.closest("[disabled], .take-back, .unseen, script, style, option, optgroup, .CodeMirror-cursors, .CodeMirror-measure");
  const faint = [...document.querySelectorAll("body *")].filter((it) => hasText(it) && shown(it) && contrast(it) < enough);
  return [...new Set(faint.map((it) => `${it.tagName} ${it.getAttribute("class") || it.id}: ${it.textContent?.trim().slice(0, 20)} ${contrast(it).toFixed(1)}`))];
}

// Runs in the page: controls without a name.
function unnamed() {
  /** @param {any} it */
  const named = (it) => it.getAttribute("aria-label") || it.labels?.length || it.textContent.trim() || it.getAttribute("aria-labelledby");
  const roles = ["listbox", "option", "toolbar", "group", "log"].map((role) => `[role=${role}]`);
  const all = [...document.querySelectorAll(["button", "input", "select", ...roles].join())].filter((it) => !it.closest(".CodeMirror"));
  return all.filter((it) => !named(it)).map((it) => it.outerHTML.slice(0, 80));
}

// Runs in the page: buttons and tabs that cut their words off.
export function clippedWords() {
  const shown = [...document.querySelectorAll("button, [role=tab]")].filter((it) => it.getClientRects().length && !it.closest(".unseen"));
  return shown.filter((it) => it.scrollWidth > it.clientWidth + 1 || it.getBoundingClientRect().right > window.innerWidth).map(({ textContent }) => textContent);
}

// Runs in the page: steps whose lines reach out of the picture.
export function clippedLines() {
  const { right } = /** @type {Element} */ (document.getElementById("picture")).getBoundingClientRect();
  const steps = [...document.querySelectorAll("#picture [data-step]")];
  /** @param {Element} it */
  const reach = (it) => Math.max(...[...it.querySelectorAll("text")].map((text) => text.getBoundingClientRect().right));
  return steps.filter((it) => reach(it) > right + 1).map((it) => it.getAttribute("data-step"));
}

// What each part of a scene is measured to be, and what it was when it was looked at.
/**
 * @param {{[part: string]: number[]}} is
 * @param {{[part: string]: number[]}} was
 */
function moved(is, was) {
  const names = [...new Set([...Object.keys(is), ...Object.keys(was)])];
  const far = (/** @type {string} */ name) => !is[name] || !was[name] || is[name].some((it, at) => Math.abs(it - was[name][at]) > NEAR);
  return names.filter(far).map((name) => `${name}: ${is[name] || "not there"}, and was ${was[name] || "not there"}`);
}

/**
 * @param {TestBrowser} browser
 * @param {string} folder
 * @param {import("./scenes.mjs").Scene} scene
 * @param {{[name: string]: {[part: string]: number[]}}} shapes
 */
async function look(browser, folder, { name, width, height, scheme = "light", media = [], paper = false, show }, shapes) {
  const hands = new Hands(browser);
  await browser.size(width, height, scheme);
  await browser.call("Emulation.setEmulatedMedia", { media: paper ? "print" : "", features: [{ name: "prefers-color-scheme", value: scheme }, ...media] });
  await show(hands);
  await hands.idle();
  await browser.run("new Promise((go) => setTimeout(go, 120))"); // sizes are told a frame later
  await browser.shot(`${folder}/${name.replaceAll(" ", "-")}.png`, paper);
  if (!media.length) assert.deepEqual(await browser.run(`(${faintTexts})(${ENOUGH})`), [], "texts are not faint");
  assert.deepEqual(await browser.run(`(${unnamed})()`), [], "controls have names");
  assert.ok((await browser.run("document.documentElement.scrollWidth")) <= width, "nothing is wider than the window");
  assert.deepEqual(await browser.run(`(${clippedLines})()`), [], "no line is clipped");
  if (!paper) assert.deepEqual(await browser.run(`(${clippedWords})()`), [], "no button cuts its words off");
  const is = await browser.run(`(${shapesOf})()`);
  if (process.env.SHAPES === "write") shapes[name] = is;
  else assert.deepEqual(moved(is, shapes[name] || {}), [], "each part stands where it stood");
  await leave(hands);
}

// What a scene has opened is closed again.
/** @param {Hands} hands */
export async function leave({ browser }) {
  await browser.call("Emulation.setEmulatedMedia", { media: "", features: [] });
  await browser.run("document.querySelectorAll('dialog[open]').forEach((it) => it.close()), document.body.click(), 0");
  await browser.run("document.body.classList.remove('embed'), document.getElementById('full').hidden = true, rewind.page.prediction.set(false), 0");
  await browser.run("document.body.classList.contains('presentation') && rewind.act(rewind.page, 'present'), rewind.page.views.windows.show('picture'), rewind.page.tour.leave(), 0");
  await browser.run("document.querySelectorAll('.menu:not([hidden])').forEach((it) => document.querySelector(`[aria-controls=${it.id}]`).click()), 0");
}

/**
 * @param {TestContext} t
 * @param {TestBrowser} browser
 * @param {string} folder
 */
export async function looks(t, browser, folder) {
  const shapes = JSON.parse(readFileSync(SHAPES, "utf8"));
  for (const scene of SCENES) await t.test(scene.name, () => look(browser, folder, scene, shapes));
  if (process.env.SHAPES === "write") writeFileSync(SHAPES, `${JSON.stringify(shapes, null, 1).replaceAll(/\[\s+(\d+),\s+(\d+),\s+(\d+),\s+(\d+)\s+\]/g, "[$1, $2, $3, $4]")}\n`);
}
