// A session of its own that takes the commands of the user's. It is there for what must be tried, and for what the protocol of clients
// tells at too great a length, and ends with that.

import { listedSteps } from "../engine/protocol.js";
import { Log } from "./log.js";
import { readScene } from "./scene.js";
import { RemoteSession, Unanswered } from "../engine/remote.js";

const AT_ONCE = 2000; // commands in one exchange
const CHOOSERS = 50; // of more goroutines at a select, the clauses of the first are tried

/** @typedef {import("./session.js").Session} Session */

// Opens a copy that has taken some commands, and ends it with what is done in it.
/**
 * @template T
 * @param {Machine} machine
 * @param {import("./statements.js").Statements} statements
 * @param {string[]} commands
 * @param {(remote: RemoteSession) => Promise<T>} act
 */
export async function inCopy(machine, statements, commands, act, isClient = false) {
  const remote = await RemoteSession.open(machine, statements.runText, isClient);
  try {
    for (let at = 0; at < commands.length; at += AT_ONCE) await remote.askAll(commands.slice(at, at + AT_ONCE), "tail");
    return await act(remote);
  } finally {
    remote.close();
  }
}

// The clauses that each ready goroutine at a select could take now: each is tried.
/**
 * @param {Session} session
 * @param {Goroutine[]} goroutines
 * @returns {Promise<Map<string, Clause[]>>}
 */
export async function readyClauses(session, goroutines) {
  const choosing = goroutines.filter(({ state, statement }) => state === "ready" && statement?.clauses.length).slice(0, CHOOSERS);
  if (!choosing.length) return new Map();
  return session.inCopy(async (remote) => {
    const found = new Map();
    for (const { name, statement } of choosing) found.set(name, await readyAmong(remote, name, statement?.clauses || []));
    return found;
  });
}

/**
 * @param {RemoteSession} remote
 * @param {string} name
 * @param {string[]} clauses
 */
async function readyAmong(remote, name, clauses) {
  const ready = [];
  for (const [at, text] of clauses.entries()) {
    const reply = await remote.ask(`step ${name} ${at + 1}`);
    if (!reply.isOk) continue;
    await remote.questions(["undo"]);
    ready.push({ number: at + 1, text });
  }
  return ready;
}

// What the session would be without a step and its consequences: how many steps go, and the panes then.
/**
 * @param {Session} session
 * @param {string} id
 * @returns {Promise<{count: number, scene: Scene}>}
 */
export function withoutStep(session, id) {
  const steps = session.log.steps(0, session.log.length);
  return session.inCopy(async (remote) => {
    const reply = await remote.ask(`back ${id}`);
    if (!reply.isOk) throw new Unanswered(reply.last);
    const gone = new Set(listedSteps(reply));
    const log = new Log();
    log.restart(steps.filter((step) => !gone.has(step.id)));
    const ask = (/** @type {string[]} */ views) => remote.askAll(views, "tail");
    return { count: gone.size, scene: await readScene(ask, log, session.statements, { isAny: session.reader.prints.isAny, areFew: true }) };
  });
}
