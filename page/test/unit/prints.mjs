// Whether what a program prints can be told in an answer.

import assert from "node:assert/strict";
import { test } from "node:test";
import { Log } from "../../src/session/log.js";
import { Prints } from "../../src/session/prints.js";
import { Statements } from "../../src/session/statements.js";

/** @param {string} line */
const printing = (line) => {
  const log = new Log();
  for (let step = 0; step < 4; step++) log.append("g0", "pure");
  return { log, prints: new Prints(new Statements(`package main\nfunc main() {\n\tfor { ${line} }\n}\n`), log) };
};

test("a program that prints nothing, and one that prints little", () => {
  assert.deepEqual([printing("x()").prints.isAny, printing("x()").prints.areFew(1000000)], [false, true]);
  const { prints } = printing("println(1)");
  assert.deepEqual([prints.isAny, prints.areFew(100000)], [true, true]);
});

test("a long text is asked for only where it is known that it is printed seldom", () => {
  const { log, prints } = printing(`println("${"x".repeat(1 << 20)}")`);
  assert.deepEqual([prints.areFew(20), prints.areFew(100)], [true, false]);
  prints.told(4, 1);
  assert.deepEqual([prints.areFew(4), prints.areFew(60), prints.areFew(80)], [true, true, false], "each further step may print a line");
  prints.told(1000, 1);
  assert.deepEqual(prints.areFew(1000), true);
  log.pop();
  assert.deepEqual(prints.areFew(1000), false, "what was known of a log that has changed is forgotten");
});
