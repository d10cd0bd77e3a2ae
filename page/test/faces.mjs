// What the page's modules say of states of programs, without a browser: node faces.mjs PROGRAM WORDS. Each line of standard input is an
// object with a source and commands, and each line of standard output what is said behind them. The native PROGRAM stands for the
// module, and WORDS has the words of faults.

import { createInterface } from "node:readline";
import { readFileSync } from "node:fs";
import { workersOf } from "./native.mjs";

const [program, words] = process.argv.slice(2);
Object.assign(globalThis, { Worker: workersOf(program) });
const { Session } = await import("../src/session/session.js");
const { standingOf } = await import("../src/waiting/standing.js");
const { waitsFor } = await import("../src/waiting/waits.js");
const { Words } = await import("../src/panes/words.js");
const { go, faults } = JSON.parse(readFileSync(words, "utf8"));
const LAST = 200; // steps of which lines and values are told
const machine = /** @type {any} */ ({ program: null, script: "", suspends: true });

/** @param {{source: string, commands: string[]}} given */
async function told({ source, commands }) {
  const session = await Session.open(machine, source);
  for (const command of commands) await session.perform(command);
  const { reader, notes, log, order } = session;
  await session.look();
  if (session.scene.isPartial) session.scene.isStuck = await reader.isStuck();
  await notes.find(0, log.length);
  const first = Math.max(0, log.length - LAST);
  await order.find(first, log.length);
  const standing = await standingOf(session, { go, faults });
  const state = new Words(/** @type {any} */ ({ codes: {}, kinds: {}, faults, go })).state(session, standing, (id) => notes.get(id));
  const steps = log.steps(first, log.length).map(({ id }) => {
    const { line, over, received } = notes.get(id) || {};
    return { id, line, value: over ? received || over.sent : "" };
  });
  const causes = await reader.lists(log.steps(first, log.length).map(({ id }) => `causes ${id}`));
  const unlike = log.steps(first, log.length).filter(({ id }, at) => clockText(order.causes(id)) !== clockText(lastOf(causes[at]))).map(({ id }) => id);
  const waits = standing?.waits.map((wait) => [wait.goroutine, waitsFor(wait)]) || [];
  session.leave();
  return { lines: standing?.lines || [], cycle: standing?.cycle || [], waits, state: state?.text || "", steps, unlike };
}

// Of each goroutine the last step in a list.
/** @param {Listed} list */
const lastOf = ({ spans }) => new Map([...spans].map(([name, [, last]]) => [name, last]));

/** @param {Map<string, number> | undefined} clock */
const clockText = (clock) => JSON.stringify([...(clock || [])].sort());

for await (const line of createInterface({ input: process.stdin })) {
  let found;
  try {
    found = await told(JSON.parse(line));
  } catch (fault) {
    found = { fault: String(/** @type {Error} */ (fault).stack) };
  }
  process.stdout.write(`${JSON.stringify(found)}\n`);
}
