// Every example session in the page, byte for byte, with the engine as it is used there; and with which status it ends.

import assert from "node:assert/strict";
import { existsSync, readFileSync, readdirSync } from "node:fs";

const FOLDER = new URL("../../crates/sessions/data", import.meta.url).pathname;
/** @param {string} file */
export const base64 = (file) => (existsSync(file) ? readFileSync(file).toString("base64") : "");

// Runs in the page: one session. What it wrote as base64, whether its source was refused, and its exit status.
/**
 * @param {string} source
 * @param {string} script
 * @param {boolean} suspends
 */
async function sessionInPage(source, script, suspends) {
  /** @param {string} text */
  const bytes = (text) => Uint8Array.from(atob(text), (letter) => letter.charCodeAt(0));
  const session = await window.rewind.Session.open(window.rewind.program, bytes(source), suspends);
  const said = [];
  if (script && session.status === null) said.push(await session.exchange(bytes(script)));
  said.push(await session.close());
  said.push(new TextEncoder().encode(session.errors));
  const text = btoa(said.map((piece) => Array.from(piece, (byte) => String.fromCharCode(byte)).join("")).join(""));
  return { text, isRefused: session.errors.length > 0, status: String(session.status) };
}

/** @param {string} base */
const textOf = (base) => Buffer.from(base, "base64").toString();

/**
 * @param {TestBrowser} browser
 * @param {string} name
 * @param {boolean} suspends
 */
async function compared(browser, name, suspends) {
  const given = [`${FOLDER}/${name}.go`, `${FOLDER}/${name}.script`].map((file) => JSON.stringify(base64(file)));
  const { text, isRefused, status } = await browser.run(`(${sessionInPage})(${given.join(",")},${suspends})`);
  const wanted = base64(`${FOLDER}/${name}.expect`);
  // Long texts that are alike are compared as they are; others line by line.
  if (text !== wanted) assert.deepEqual(textOf(text).split("\n"), textOf(wanted).split("\n"), "what it writes");
  assert.equal(text, wanted, "bytes that are no text");
  assert.equal(status, isRefused ? "1" : "0", "its exit status");
}

/**
 * @param {TestContext} t
 * @param {TestBrowser} browser
 * @param {boolean} suspends
 */
async function allOf(t, browser, suspends) {
  const names = readdirSync(FOLDER).filter((name) => name.endsWith(".go")).map((name) => name.slice(0, -3)).sort();
  assert.ok(names.length, "there are example sessions");
  for (const name of names) await t.test(name, () => compared(browser, name, suspends));
}

// In one run that waits, where the browser can suspend WebAssembly, and run anew for each exchange.
/**
 * @param {TestContext} t
 * @param {TestBrowser} browser
 */
export async function sessions(t, browser, ways = [true, false]) {
  const canSuspend = await browser.run("'Suspending' in WebAssembly");
  for (const suspends of ways.filter((it) => canSuspend || !it)) {
    await t.test(`sessions ${suspends ? "in one run that waits" : "run anew for each exchange"}`, (/** @type {TestContext} */ t) => allOf(t, browser, suspends));
  }
}
