// Parts of the test of a page: each is a test of its own, in a browser of its own.

import assert from "node:assert/strict";
import { test } from "node:test";
import { Browser, DidNotStart } from "./browser.mjs";
import { Hands } from "./hands.mjs";

// Does acts with the page one after another, each as a test below `t`.
/**
 * @param {TestContext} t
 * @param {TestBrowser} browser
 * @param {Acts} acts
 */
export async function inTurn(t, browser, acts) {
  for (const [name, act] of Object.entries(acts)) await t.test(name, (t) => act(new Hands(browser), t));
}

let noBrowser = ""; // why Chromium does not show the page, where it does not: then no other part tries it

/**
 * @param {TestContext} t
 * @param {string} page
 * @param {Part} given
 */
async function inBrowser(t, page, { part, hash, open = Browser.open }) {
  assert.ok(!noBrowser || open !== Browser.open, noBrowser);
  const browser = await open();
  try {
    await browser.size(1280, 800);
    await browser.load(page, hash);
    await part(t, browser);
    assert.deepEqual(browser.faults, [], "faults in the page");
    assert.deepEqual(await browser.run("window.rewind?.page.errors || []"), [], "errors of its own that the page has told");
  } finally {
    await browser.close();
  }
}

// Makes a test of a part. `missing` names what a part lacks of the machine; a server of tests must have all.
/**
 * @param {string} page
 * @param {Part} part
 */
export function testOf(page, part) {
  const { name, missing = () => "", open = Browser.open } = part;
  test(name, async (t) => {
    const lacked = missing();
    assert.ok(!lacked || !process.env.CI, `there is no '${lacked}', and CI is set`);
    if (lacked) return t.skip(`there is no '${lacked}'`);
    return inBrowser(t, page, part).catch((fault) => {
      if (fault instanceof DidNotStart && open === Browser.open) noBrowser = fault.message;
      throw fault;
    });
  });
}
