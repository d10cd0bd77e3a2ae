// The program's module before and after its addresses were narrowed: the same bytes in every example session, and how long a run takes.

import assert from "node:assert/strict";
import { existsSync } from "node:fs";
import { base64, sessions } from "./sessions.mjs";
import { LOOP } from "./truths.mjs";

const ROUNDS = 5;

// Runs in the page: compiles the module with 64-bit addresses beside the page's own.
/** @param {string} text */
async function compileWide(text) {
  window.narrow = window.rewind.program;
  window.wide = await WebAssembly.compile(Uint8Array.from(atob(text), (letter) => letter.charCodeAt(0)));
}

// Runs in the page: the first words of the reply to a long run, and its milliseconds.
/**
 * @param {string} program
 * @param {string} source
 */
async function longRun(program, source) {
  const session = await window.rewind.Session.open(program, new TextEncoder().encode(source));
  const began = performance.now();
  const said = await session.exchange(new TextEncoder().encode("run 100000\n"));
  const took = performance.now() - began;
  await session.close();
  return { said: new TextDecoder().decode(said).slice(0, 9), took };
}

/**
 * @param {TestContext} t
 * @param {TestBrowser} browser
 */
async function times(t, browser) {
  const least = { narrow: Infinity, wide: Infinity };
  for (let round = 0; round < ROUNDS; round++) {
    for (const name of /** @type {const} */ (["narrow", "wide"])) {
      const { said, took } = await browser.run(`(${longRun})(window.${name}, ${JSON.stringify(LOOP)})`);
      assert.equal(said, "ok 100000", `a long run on the ${name} module`);
      least[name] = Math.min(least[name], took);
    }
  }
  t.diagnostic(`100,000 steps take ${least.narrow.toFixed(0)} ms with 32-bit addresses, and ${least.wide.toFixed(0)} ms with 64-bit ones`);
}

/**
 * @param {TestContext} t
 * @param {TestBrowser} browser
 * @param {string} file
 */
export async function wideModule(t, browser, file) {
  assert.ok(existsSync(file), `there is no module ${file}: 'make page' or 'make quick-page' makes it`);
  await browser.run(`(${compileWide})("${base64(file)}")`);
  await t.test("a long run", (/** @type {TestContext} */ t) => times(t, browser));
  await browser.run("window.rewind.program = window.wide, 0");
  await sessions(t, browser, [true]);
}
