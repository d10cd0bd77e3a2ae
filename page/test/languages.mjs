// The page in each of its languages: no English is left in any of its looks, no button cuts its words, and the language is kept.

import assert from "node:assert/strict";
import { readFileSync } from "node:fs";
import { clippedLines, clippedWords, leave } from "./looks.mjs";
import { Hands } from "./hands.mjs";
import { SCENES } from "./scenes.mjs";

/** @type {{languages: {[code: string]: string}, phrases: string[][]}} */
const TABLE = JSON.parse(readFileSync(new URL("../languages.json", import.meta.url), "utf8"));
const CODES = Object.keys(TABLE.languages);
const OTHERS = CODES.slice(1);
const LOOKS = SCENES.filter(({ name, scheme, media, paper }) => !scheme && !media && !paper && !["long log", "sixty goroutines", "wide"].includes(name));
/** @type {import("./scenes.mjs").Scene[]} */
const NEW = [
  {
    name: "why", width: 1280, height: 720, show: async (hands) => {
      await hands.story("deadlock");
      await hands.perform("run 100");
      await hands.tab("why");
      await hands.act("find-blame");
    },
  },
  {
    name: "two schedules", width: 1280, height: 720, show: async (hands) => {
      await hands.story("deadlock");
      await hands.act("search-all");
      await hands.act("show-parting");
      await hands.until("document.querySelectorAll('#schedules svg').length === 2");
    },
  },
];
// Words that no other language of the page has.
const ENGLISH = "\\b(?:the|is|are|were|of|and|with|that|which|this|its|has|what|where|who|how|not)\\b";

// Runs in the page: texts and attributes that are English, among those that the page shows as its own words.
/**
 * @param {string[]} phrases that are otherwise in the language
 * @param {string} words
 */
function english(phrases, words) {
  const known = new Set(phrases);
  const isEnglish = (/** @type {string} */ text) => known.has(text) || new RegExp(words, "i").test(text);
  const untold = "script, style, code, kbd, pre, .CodeMirror, #console, #licence, .asked, .refused, [translate=no], #language option, .kind, .of, .card strong";
  const texts = [];
  const walker = document.createTreeWalker(document.body, NodeFilter.SHOW_TEXT);
  while (walker.nextNode()) if (!walker.currentNode.parentElement?.closest(untold)) texts.push(String(walker.currentNode.nodeValue));
  for (const name of ["title", "aria-label", "placeholder"]) {
    for (const it of document.querySelectorAll(`[${name}]`)) if (!it.closest(".CodeMirror, [data-step]")) texts.push(String(it.getAttribute(name)));
  }
  return [...new Set(texts.map((it) => it.trim().replace(/\s+/g, " ")).filter((it) => it && isEnglish(it)))];
}

// The English phrases that are other ones in a language, and no words of its own.
/** @param {string} code */
function foreign(code) {
  const column = CODES.indexOf(code);
  const own = new Set(TABLE.phrases.map((row) => row[column]));
  return TABLE.phrases.filter((row) => !own.has(row[0])).map((row) => row[0]);
}

/**
 * @param {TestBrowser} browser
 * @param {string} code
 * @param {import("./scenes.mjs").Scene} scene
 */
async function look(browser, code, { width, height, show }) {
  const hands = new Hands(browser);
  await browser.size(width, height);
  await show(hands);
  await hands.idle();
  await browser.run("new Promise((go) => setTimeout(go, 120))");
  assert.deepEqual(await browser.run(`(${english})(${JSON.stringify(foreign(code))}, ${JSON.stringify(ENGLISH)})`), [], "no English is left");
  assert.deepEqual(await browser.run(`(${clippedWords})()`), [], "no button cuts its words off");
  assert.deepEqual(await browser.run(`(${clippedLines})()`), [], "no line is clipped");
  assert.ok((await browser.run("document.documentElement.scrollWidth")) <= width, "nothing is wider than the window");
  await leave(hands);
}

// Loads the page anew; another address is another page.
/**
 * @param {TestBrowser} browser
 * @param {string} page
 * @param {string} query
 * @param {string} hash
 */
const load = (browser, page, query, hash = "") => browser.load(page, `?${query}${hash}`);

const spoken = "[document.documentElement.lang, document.documentElement.dir, document.getElementById('start').textContent]";

/**
 * @param {TestBrowser} browser
 * @param {string} page
 */
async function ofTheBrowser(browser, page) {
  await browser.call("Emulation.setUserAgentOverride", { userAgent: "a browser", acceptLanguage: "it,de-AT,fr" });
  await load(browser, page, "wished");
  assert.deepEqual(await browser.run(spoken), ["de", "ltr", "Start"], "the first language that the browser wishes and the page has");
  await browser.call("Emulation.setUserAgentOverride", { userAgent: "a browser", acceptLanguage: "it" });
  await load(browser, page, "unknown");
  assert.deepEqual((await browser.run(spoken))[0], "en", "English where it has none of them");
}

// The language that is chosen in the menu is kept, and a link has it.
/**
 * @param {TestBrowser} browser
 * @param {string} page
 */
async function chosenHere(browser, page) {
  const hands = new Hands(browser);
  await hands.story("deadlock");
  await hands.perform("run 12");
  const loaded = new Promise((go) => /** @type {any} */ (browser).pipe.listeners.push((/** @type {{method: string}} */ { method }) => method === "Page.loadEventFired" && go(method)));
  await browser.run("const menu = document.getElementById('language'); menu.value = 'fr', menu.onchange(), 0");
  await loaded;
  await browser.run("window.started");
  await hands.idle();
  assert.equal(await browser.run("document.getElementById('start').textContent"), "Démarrer");
  assert.equal((await hands.ids()).length, 12, "the session is as it was");
  assert.ok(/&lang=fr$/.test(await browser.run("rewind.frameOf(rewind.page).then((text) => /src=\"([^\"]*)&amp;embed/.exec(text)[1].replaceAll('&amp;', '&'))")), "a link has the language");
  await load(browser, page, "kept");
  assert.equal((await browser.run(spoken))[0], "fr", "it is kept over a reload");
  await browser.run("localStorage.clear()");
}

// Numbers have the signs of the language, and one of something is said otherwise than several.
/**
 * @param {TestBrowser} browser
 * @param {string} page
 */
async function countsAndNumbers(browser, page) {
  const hands = new Hands(browser);
  await load(browser, page, "numbers", "#lang=de");
  await hands.source("package main\nfunc main() { n := 0; for { n++ } }\n");
  await hands.perform("run 1");
  assert.equal(await hands.text("#moment-text"), "jetzt, 1 Schritt");
  await hands.perform("run 1999");
  assert.equal(await hands.text("#moment-text"), "jetzt, 2.000 Schritte");
  await browser.run("document.getElementById('count').value = '1.000', rewind.act(rewind.page, 'run'), 0");
  await hands.idle();
  assert.equal((await hands.ids()).length, 3000, "a number may be written as the language writes it");
}

/**
 * @param {TestContext} t
 * @param {TestBrowser} browser
 * @param {string} page
 */
export async function inLanguages(t, browser, page) {
  await t.test("that of the browser", () => ofTheBrowser(browser, page));
  await t.test("one that is chosen", () => chosenHere(browser, page));
  await t.test("numbers and counts", () => countsAndNumbers(browser, page));
  for (const code of OTHERS) {
    await t.test(TABLE.languages[code], async (it) => {
      await load(browser, page, code, `#lang=${code}`);
      assert.equal((await browser.run(spoken))[0], code);
      for (const scene of [...LOOKS, ...NEW]) await it.test(scene.name, () => look(browser, code, scene));
      await browser.run("localStorage.clear()");
    });
  }
}
