// Which values went over which channels: of each the step of its sender, and the step of its receiver. Of the clients it is
// `transfers.py`. A send or a receive that waited counts by the step in which it began to wait.

import { isWait, word } from "../session/edges.js";
import { receives, sends, wokenBy } from "../session/facts.js";
import { goroutineOf } from "../engine/protocol.js";

// Kinds by which nothing goes over a channel.
const NOTHING = new Set(["fault", "closed"]);

export class Transfers {
  /** @param {Iterable<string>} channels */
  constructor(channels) {
    // The steps of the senders and of the receivers, in the order of the messages, and those that put a value into the buffer.
    /** @type {Map<string, {sent: string[], taken: string[], put: string[]}>} */
    this.of = new Map([...channels].map((name) => [name, { sent: [], taken: [], put: [] }]));
  }

  // Goes through a log.
  /**
   * @param {import("../session/log.js").Log} log
   * @param {import("../session/facts.js").Facts} facts
   */
  async read(log, facts) {
    if (!this.of.size) return;
    await facts.need(0, log.length);
    for (let row = 0; row < log.length; row++) {
      const fact = facts.at(row);
      if (fact?.channel && this.of.has(fact.channel.name) && !isWait(fact.kind) && !NOTHING.has(word(fact.kind))) this.keep(fact.channel.name, fact);
    }
  }

  // Keeps a value that a step sent or received, and the wait that it ended.
  /**
   * @param {string} name
   * @param {About} fact
   */
  keep(name, fact) {
    const known = /** @type {{sent: string[], taken: string[], put: string[]}} */ (this.of.get(name));
    const [wait] = wokenBy(fact);
    if (sends(fact)) {
      known.sent.push(fact.id);
      (wait ? known.taken : known.put).push(wait || fact.id);
    } else if (receives(fact)) {
      known.taken.push(fact.id);
      if (wait) known.sent.push(wait);
      if (wait) known.put.push(wait);
    }
  }
}

// The steps of a goroutine before one of its steps that called a function which has not returned, the innermost first.
/**
 * @param {import("../session/log.js").Log} log
 * @param {string} id
 */
export function callsBefore(log, id) {
  /** @type {string[]} */
  const calls = [];
  const name = goroutineOf(id);
  const before = log.row(id) >= 0 ? log.row(id) : log.length;
  for (const row of log.byName.get(name)?.rows || []) {
    if (row >= before) break;
    if (log.kinds[row] === "call") calls.unshift(log.id(row));
    if (log.kinds[row] === "return") calls.shift();
  }
  return calls;
}
