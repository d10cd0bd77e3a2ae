// What is shown of steps: a step keeps the line that it printed, also where a later one was taken back meanwhile; values come from the
// states before and after a step.

import assert from "node:assert/strict";
import { test } from "node:test";
import { Log } from "../../src/session/log.js";
import { parseReplies } from "../../src/engine/protocol.js";
import { Reader } from "../../src/session/reader.js";
import { shapedText } from "../../src/engine/shapes.js";
import { Statements } from "../../src/session/statements.js";

const SOURCE = "package main\nfunc main() {\nx := 2\nprintln(2)\nprintln(3)\nprintln(5)\n}\n";
const PRINTED = [2, 3, 5];

// A session that has taken these steps, and what it was asked. Behind the first answer on what was printed, `meanwhile` happens.
/** @param {(log: Log) => void} meanwhile */
function made(meanwhile = () => {}) {
  const statements = new Statements(SOURCE);
  const lines = statements.all.map(({ expandedLine }) => expandedLine);
  const log = new Log();
  for (let step = 0; step < 4; step++) log.append("g0", "pure");
  const about = () => lines.slice(0, log.length).map((line, at) => ({
    id: `g0#${at + 1}`, kind: "pure", at: { function: "main", line }, channel: null, given: at ? [] : ["x"], made: null, prints: at > 0, reached: [], sources: [],
  }));
  /** @type {string[]} */
  const asked = [];
  /** @param {string} command */
  const answer = (command) => {
    asked.push(command);
    const [, row, view] = command.split(" ");
    if (view === "console" && asked.length === 1) meanwhile(log);
    if (view === "console") return `${PRINTED.slice(0, Number(row) - 1).map((it) => `| ${it}\n`).join("")}ok\n`;
    return `| g0 ready ${row} line ${lines[Number(row)]}\n| main${Number(row) ? " x=2" : ""}\nok\n`;
  };
  const remote = {
    machine: { suspends: true },
    /** @param {string[]} commands */
    askAll: async (commands, shape = "replies") => (shape === "told" ? [{ about: about() }] : commands.flatMap((it) => shapedText(answer(it), shape))),
  };
  return { log, asked, reader: new Reader(/** @type {any} */ (remote), statements, log, new Map()) };
}

test("steps have the lines that they printed, and the values that they gave", async () => {
  const { log, asked, reader } = made();
  await reader.notes.find(0, log.length);
  const told = ["g0#1", "g0#2", "g0#3", "g0#4"].map((id) => reader.notes.get(id));
  assert.deepEqual(told.map((note) => note?.printed), [[], ["2"], ["3"], ["5"]]);
  assert.deepEqual(told.map((note) => note?.after?.variables), [[{ name: "x", value: "2" }], undefined, undefined, undefined]);
  assert.deepEqual(asked, ["at 4 console", "at 0 show g0", "at 1 show g0"], "and no state is asked that tells no value");
  await reader.notes.find(0, log.length);
  assert.equal(asked.length, 3, "what is found is not asked again");
});

test("lines are read anew where the log has changed meanwhile", async () => {
  const { log, reader } = made((it) => it.append("g0", "pure"));
  await reader.notes.find(0, 4, { hasValues: false });
  assert.deepEqual([reader.notes.get("g0#1")?.printed, reader.notes.get("g0#2")], [[], undefined], "and until then the steps have no note");
  await reader.notes.find(0, log.length, { hasValues: false });
  assert.deepEqual(["g0#2", "g0#3", "g0#4"].map((id) => reader.notes.get(id)?.printed), [["2"], ["3"], ["5"]]);
});

test("steps that stay keep their own lines where one after them was taken back", async () => {
  const { log, reader } = made();
  await reader.notes.find(0, log.length, { hasValues: false });
  reader.notes.forget(log.apply("undo", parseReplies("ok g0#4\n")[0]));
  await reader.notes.find(0, log.length, { hasValues: false });
  assert.deepEqual(["g0#2", "g0#3", "g0#4"].map((id) => reader.notes.get(id)?.printed), [["2"], ["3"], undefined]);
});
