// Text that comes neither by keys nor by paste, as of an input method, dictation, a text expander or an extension: it is in the source as
// it came, and the editor draws what the source has.

import assert from "node:assert/strict";
import { Hands } from "./hands.mjs";

const START = "package main\nfunc main() {\n\tprintln(1)\n\tprintln(2)\n}\n";
const LONG = `package main\n\nfunc main() {\n${Array.from({ length: 60 }, (_, at) => `\tprintln(${at})\n`).join("")}}\n`;
// What comes, where something is selected or the cursor stands, and what the source is then.
/** @typedef {{over: number[], text?: string, command?: string, then: string}} Case */
/** @type {Case[]} */
const CASES = [
  { over: [0, 0, 5, 0], text: LONG, then: LONG },
  { over: [0, 0, 5, 0], text: "// a\n\n\n// b\n", then: "// a\n\n\n// b\n" },
  { over: [2, 1, 2, 1], text: "x := 1\n\ty := 2\n\t", then: START.replace("\tprintln(1)", "\tx := 1\n\ty := 2\n\tprintln(1)") },
  { over: [1, 13, 3, 0], text: "\n", then: START.replace("\tprintln(1)\n", "") },
  { over: [2, 1, 2, 8], text: "print", then: START.replace("println(1)", "print(1)") },
  { over: [1, 5, 3, 10], text: "x", then: "package main\nfunc x)\n}\n" },
  { over: [2, 1, 2, 1], text: "\n", then: START.replace("\tprintln(1)", "\t\nprintln(1)") },
  { over: [5, 0, 5, 0], text: "// end\n// more", then: `${START}// end\n// more` },
  { over: [1, 2, 3, 3], command: "delete", then: "package main\nfuintln(2)\n}\n" },
  { over: [2, 0, 2, 0], command: "delete", then: START.replace("{\n", "{") },
  { over: [1, 13, 1, 13], command: "forwardDelete", then: START.replace("{\n", "{") },
];

// Runs in the page: what comes of a change, and whether each line in view is drawn once, with its number.
/**
 * @param {string} start
 * @param {Case} given
 */
async function changed(start, { over, text, command = "insertText" }) {
  /** @param {number} time */
  const pause = (time) => new Promise((go) => setTimeout(go, time));
  const { CodeMirror: editor } = /** @type {any} */ (document.querySelector(".CodeMirror"));
  const [from, to] = [{ line: over[0], ch: over[1] }, { line: over[2], ch: over[3] }];
  editor.setValue(start);
  editor.focus();
  editor.setSelection(from, to);
  await pause(120);
  document.execCommand(command, false, text);
  await pause(150);
  const { from: first, to: last } = editor.getViewport();
  const lines = Array.from({ length: last - first }, (_, at) => editor.getLine(first + at));
  /** @param {string} line */
  const plain = (line) => line.replaceAll(/[\u200b\s]/g, "");
  const drawn = [...document.querySelectorAll(".CodeMirror-code .CodeMirror-line")].map((it) => plain(it.textContent || ""));
  const numbers = [...document.querySelectorAll(".CodeMirror-code .CodeMirror-linenumber")].map((it) => Number(it.textContent));
  const end = editor.getCursor();
  const isDrawn = String(drawn) === String(lines.map(plain)) && String(numbers) === String(lines.map((_, at) => first + at + 1));
  return [editor.getValue(), isDrawn, [end.line, end.ch].join()];
}

// Where a text ends that is put behind another.
/** @param {Case} given */
function endOf({ over, text = "", command }) {
  if (command) return null;
  const lines = text.split("\n");
  const at = over[0] + lines.length - 1;
  return [at, lines[lines.length - 1].length + (lines.length === 1 ? over[1] : 0)].join();
}

// Text that comes by commands of the document, which every browser knows.
/** @param {TestBrowser} browser */
async function byCommands(browser) {
  for (const it of CASES) {
    const what = it.command ? `'${it.command}' at ${it.over}` : `${JSON.stringify(it.text?.slice(0, 20))} at ${it.over}`;
    const is = await browser.run(`(${changed})(${JSON.stringify(START)}, ${JSON.stringify(it)})`);
    assert.deepEqual(is, [it.then, true, endOf(it) ?? is[2]], `inserted without keys: ${what}`);
  }
  const editor = "document.querySelector('.CodeMirror').CodeMirror";
  assert.deepEqual(await browser.run(`(${editor}.undo(), ${editor}.getValue())`), START, "undoing takes it back");
}

/**
 * @param {TestContext} t
 * @param {TestBrowser} browser
 */
export const insertions = (t, browser) => t.test("text that comes without keys", () => byCommands(browser));

// By the protocol of Chromium: a text at once over several lines, an input method over several lines, and keys after both.
/** @param {TestBrowser} browser */
async function byProtocol(browser) {
  const hands = new Hands(browser);
  const select = "(() => { const { editor } = rewind.page.views.editor; editor.focus(); editor.setSelection({ line: 0, ch: 0 }, { line: editor.lastLine(), ch: 0 }); })()";
  await hands.source(START);
  await browser.run(select);
  await browser.call("Input.insertText", { text: LONG });
  await hands.until("rewind.page.views.editor.text !== rewind.page.session.source");
  assert.deepEqual(await browser.run("rewind.page.views.editor.text"), LONG, "a text that comes at once is whole");
  await hands.act("start");
  assert.deepEqual(await browser.run("rewind.page.session.source"), LONG, "and its program starts");
  await hands.source(START);
  await browser.run(`${select}, new Promise((go) => setTimeout(go, 120))`);
  await browser.call("Input.imeSetComposition", { text: "// に", selectionStart: 4, selectionEnd: 4 });
  await browser.call("Input.imeSetComposition", { text: "// 日本", selectionStart: 5, selectionEnd: 5 });
  await browser.call("Input.insertText", { text: "// 日本" });
  await browser.run("new Promise((go) => setTimeout(go, 300))");
  await browser.key("Enter");
  await browser.key("x");
  assert.equal(await browser.run("rewind.page.views.editor.text"), "// 日本\nx", "an input method writes over several lines");
  await hands.source(START);
}

/**
 * @param {TestContext} t
 * @param {TestBrowser} browser
 */
export async function inputMethods(t, browser) {
  await insertions(t, browser);
  await t.test("text at once, and an input method, over several lines", () => byProtocol(browser));
}
