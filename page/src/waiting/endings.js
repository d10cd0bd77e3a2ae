// What would become of the goroutines that are not done at the end of `main`, if it waited for them. Of the clients it is `endings.py`.
// The exit is taken back in a session of its own, and the others go on as far as they can. Only one that waits for ever is a leak.

import { Log } from "../session/log.js";
import { Reader } from "../session/reader.js";
import { View } from "./waits.js";
import { compareNames, goroutineOf } from "../engine/protocol.js";
import { endsAll } from "../session/edges.js";
import { WHOLE } from "../session/order.js";

// Steps that the other goroutines get, and how many one gets before the next one.
export const DRAIN = 2000;
const DRAIN_PORTION = 8;

/** @typedef {"end" | "wait" | "go on" | "fault"} Ending */
/** @typedef {{goroutine: string, ending: Ending, line: number, fault: string}} Fate */
/** @typedef {{fates: Fate[], waits: import("./waits.js").Wait[]}} Fates */

// What would become of each goroutine of `names`, and what those wait for that would wait for ever; nothing where that is not found.
/**
 * @param {import("../session/session.js").Session} session
 * @param {string[]} names
 * @returns {Promise<Fates | null>}
 */
export async function fatesOf(session, names) {
  if (!names.length) return { fates: [], waits: [] };
  const steps = session.log.steps(0, session.log.length - 1);
  return session.inCopy(async (remote) => {
    await remote.ask("undo");
    const log = new Log();
    log.restart(steps);
    const reader = new Reader(remote, session.statements, log, session.clauses);
    steps.forEach(({ row }) => keepFact(reader, session.reader.facts.at(row), row));
    return fatesBehind(reader, session.program, names);
  }, true);
}

// What was told of a step of the session holds of the same step here.
/**
 * @param {Reader} reader
 * @param {About | undefined} fact
 * @param {number} row
 */
const keepFact = ({ facts }, fact, row) => fact && facts.put(row, fact);

/**
 * @param {Reader} reader
 * @param {import("./flows.js").Program} program
 * @param {string[]} names
 * @returns {Promise<Fates | null>}
 */
async function fatesBehind(reader, program, names) {
  const { log, notes } = reader;
  const end = await drain(reader);
  if (end) return { fates: [await faultOf(reader, end)], waits: [] };
  if (log.length <= WHOLE) await notes.find(0, log.length, { hasValues: false });
  const view = await View.read(reader, program);
  return view && { fates: fatesIn(view, names), waits: (await view.waits()).filter(({ goroutine }) => goroutine !== "g0") };
}

// Lets the goroutines beside `main` go on until none is ready, or for many steps. Gives the step that stopped the program, or "".
/** @param {Reader} reader */
async function drain({ remote, log }) {
  const done = new Set(["g0"]);
  const started = startedIn(log);
  for (let taken = 0; taken < DRAIN; ) {
    const commands = started.filter((name) => !done.has(name)).flatMap((name) => Array(DRAIN_PORTION).fill(`step ${name}`));
    const replies = await remote.askAll(commands);
    const before = taken;
    for (const [at, { isOk, words }] of replies.entries()) {
      if (words[1] === "N4") done.add(commands[at].slice("step ".length));
      if (!isOk) continue;
      taken++;
      log.append(goroutineOf(words[1]), words.slice(2).join(" "));
      if (words[2] === "go") started.push(log.names.filter((name) => !started.includes(name) && name !== "g0")[0]);
      if (endsAll(words[2])) return words[1];
    }
    if (before === taken) break;
  }
  return "";
}

// The goroutines in the order of their starts.
/** @param {Log} log */
function startedIn(log) {
  /** @type {Map<string, number>} */
  const counts = new Map();
  const names = [];
  for (let row = 0; row < log.length; row++) {
    if (log.kinds[row] !== "go") continue;
    const owner = log.columns[row].name;
    counts.set(owner, (counts.get(owner) || 0) + 1);
    names.push(`${owner}.${counts.get(owner)}`);
  }
  return names;
}

/**
 * @param {View} view
 * @param {string[]} names
 */
function fatesIn(view, names) {
  const open = new Map(view.goroutines.filter(({ name }) => name !== "g0").map((it) => [it.name, it]));
  return [...new Set([...names, ...open.keys()])].sort(compareNames).map((goroutine) => {
    const one = open.get(goroutine);
    const ending = /** @type {Ending} */ (!one ? "end" : one.state === "waiting" ? "wait" : "go on");
    return { goroutine, ending, line: one?.line || 0, fault: "" };
  });
}

/**
 * @param {Reader} reader
 * @param {string} id
 * @returns {Promise<Fate>}
 */
async function faultOf({ log, notes }, id) {
  await notes.find(log.length - 1, log.length, { hasValues: false });
  return { goroutine: goroutineOf(id), ending: "fault", line: notes.get(id)?.line || 0, fault: log.kindOf(id).slice("fault ".length) };
}
