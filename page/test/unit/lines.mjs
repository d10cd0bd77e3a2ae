// Lines of the source in commands and replies of a session that runs each statement on a line of its own.

import assert from "node:assert/strict";
import { test } from "node:test";
import { commandsFor, inSource } from "../../src/session/lines.js";
import { parseReplies } from "../../src/engine/protocol.js";
import { Statements } from "../../src/session/statements.js";

const SOURCE = "package main\nfunc main() { x := 1; println(x) }\n\n";

/** @param {Statements} statements */
const linesOf = (statements) => statements.all.filter(({ line }) => line === 2).map(({ expandedLine }) => expandedLine);

test("a breakpoint stands at each statement of its line", () => {
  const statements = new Statements(SOURCE);
  assert.ok(linesOf(statements).length > 1, "there are several");
  assert.deepEqual(commandsFor(" break  2", statements), linesOf(statements).map((line) => `break ${line}`));
  assert.deepEqual(commandsFor("clear 2", statements), linesOf(statements).map((line) => `clear ${line}`));
});

test("a breakpoint where no statement begins is never met", () => {
  const statements = new Statements(SOURCE);
  assert.deepEqual(commandsFor("break 3", statements), [`break ${statements.length + 3}`]);
  assert.deepEqual(commandsFor("break 4294967295", statements), ["break 4294967295"]);
});

test("what is no command of a breakpoint goes as it is", () => {
  const statements = new Statements(SOURCE);
  for (const line of ["break", "break 0", "break x", "break 2 3", "break 4294967296", "run 5", "show g0"]) assert.deepEqual(commandsFor(line, statements), [line]);
});

test("replies have lines of the source", () => {
  const statements = new Statements(SOURCE);
  const line = linesOf(statements)[1];
  const told = (/** @type {string} */ command, /** @type {string} */ text) => inSource(command, parseReplies(text)[0], statements);
  assert.deepEqual([told("run 9", `ok 1 break ${line}\n`).last, told("run 9", `ok 1 break ${line}\n`).words], ["ok 1 break 2", ["ok", "1", "break", "2"]]);
  assert.deepEqual(told("show g0", `| g0 ready 1 line ${line}\n| main x=1\nok\n`).lines, ["g0 ready 1 line 2", "main x=1"]);
  assert.deepEqual(told("show g0", "| g0 done 4\nok\n").lines, ["g0 done 4"]);
  assert.equal(told("run 9", "ok 9 count\n").last, "ok 9 count");
});
