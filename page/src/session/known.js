// Causes and consequences of steps. In a log of some length the order of the steps tells them. In a longer one the program lists them:
// each list is asked once, and kept until the log changes.

import { WHOLE } from "./order.js";

const KEPT = 2000; // lists

// A list that has, of each goroutine, all steps between two.
/**
 * @param {[string, number[]][]} spans
 * @returns {Listed}
 */
function listOf(spans) {
  const count = spans.reduce((sum, [, [first, last]]) => sum + last - first + 1, 0);
  return { isOk: true, count, spans: new Map(spans), last: "ok" };
}

export class Known {
  /** @param {import("./reader.js").Reader} reader */
  constructor(reader) {
    this.reader = reader;
    this.version = reader.log.version; // of the log that the kept lists are of
    /** @type {Map<string, Listed>} */
    this.lists = new Map();
  }

  // The list that answers a command, if it is known.
  /** @param {string} command */
  list(command) {
    const { log, order } = this.reader;
    if (this.version !== log.version || this.lists.size > KEPT) this.lists.clear();
    this.version = log.version;
    const [word, id] = command.split(" ");
    if (word === "causes") {
      const causes = order.causes(id);
      return causes ? listOf([...causes].map(([name, last]) => [name, [1, last]])) : this.lists.get(command);
    }
    const consequences = order.consequences(id);
    return consequences ? listOf([...consequences].map(([name, first]) => [name, [first, log.byName.get(name)?.rows.length || 0]])) : this.lists.get(command);
  }

  /** @param {string} id */
  commands = (id) => [`causes ${id}`, `deps ${id}`];

  /** @param {string} id */
  has(id) {
    return this.commands(id).every((command) => this.list(command));
  }

  // The causes of a step and its consequences.
  /**
   * @param {string} id
   * @returns {Promise<Listed[]>}
   */
  async of(id) {
    const { log, order } = this.reader;
    if (log.length <= WHOLE) await order.find(0, log.length);
    const commands = this.commands(id);
    const found = new Map(commands.map((command) => [command, this.list(command)]));
    const missing = commands.filter((command) => !found.get(command));
    const { version } = this;
    for (const command of missing) {
      const [list] = await this.reader.lists([command]); // one at a time, so that a command of a person waits for one alone
      found.set(command, list);
      if (version === log.version) this.lists.set(command, list);
    }
    return commands.map((command) => /** @type {Listed} */ (found.get(command)));
  }
}
