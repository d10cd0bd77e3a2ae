// What the program tells of the kept steps, as docs/PROTOCOL.md has it. It is asked in portions, as far as somebody looks, and what was
// told of a row is kept until the log changes there.

const PORTION = 500; // rows
const KEPT = 64; // portions

export class Facts {
  /**
   * @param {import("./log.js").Log} log
   * @param {(from: number, to: number) => Promise<About[]>} ask
   */
  constructor(log, ask) {
    this.log = log;
    this.ask = ask;
    /** @type {Map<number, About[]>} */
    this.portions = new Map();
    this.changes = 0; // of rows that may have been told of
    log.watch((row) => this.forget(row));
  }

  /** @param {number} row the first that changed */
  forget(row) {
    this.changes++;
    for (const [portion, facts] of this.portions) facts.splice(Math.max(0, row - portion * PORTION));
  }

  // Keeps what was told of a row, where the rows before it in its portion are known.
  /**
   * @param {number} row
   * @param {About} fact
   */
  put(row, fact) {
    const portion = Math.floor(row / PORTION);
    const known = this.portions.get(portion) || [];
    if (known.length !== row % PORTION) return;
    known.push(fact);
    if (known.length === 1) this.keep(portion, known);
  }

  // What was told of a row.
  /**
   * @param {number} row
   * @returns {About | undefined}
   */
  at(row) {
    return this.portions.get(Math.floor(row / PORTION))?.[row % PORTION];
  }

  // What was told of a step.
  /** @param {string} id */
  of(id) {
    return this.at(this.log.row(id));
  }

  // Asks what is not told yet of the rows between two. Where the log changes meanwhile, some may be missing.
  /**
   * @param {number} from
   * @param {number} to
   */
  async need(from, to) {
    const last = Math.min(to, this.log.length);
    for (let portion = Math.floor(Math.max(0, from) / PORTION); portion * PORTION < last; portion++) await this.fill(portion);
  }

  /** @param {number} portion */
  async fill(portion) {
    const { changes } = this;
    const known = this.portions.get(portion) || [];
    const [first, last] = [portion * PORTION + known.length, Math.min((portion + 1) * PORTION, this.log.length)];
    if (first >= last) return;
    const told = await this.ask(first, last);
    if (changes !== this.changes) return;
    this.keep(portion, [...known, ...told]);
  }

  /**
   * @param {number} portion
   * @param {About[]} facts
   */
  keep(portion, facts) {
    this.portions.delete(portion);
    this.portions.set(portion, facts);
    if (this.portions.size > KEPT) this.portions.delete(/** @type {number} */ (this.portions.keys().next().value));
  }
}

// The step that had written a goroutine last, or "".
/**
 * @param {About} fact
 * @param {string} goroutine
 */
export const wroteLast = ({ sources }, goroutine) => sources.find(({ object, of }) => object === "goroutine" && of === goroutine)?.step || "";

// The steps in which the goroutines had begun to wait that a step let go on.
/** @param {About} fact */
export const wokenBy = (fact) => (fact.kind === "go" ? [] : fact.reached.map((name) => wroteLast(fact, name)));

// The goroutine that a step started, or "".
/** @param {About} fact */
export const startedBy = ({ kind, reached }) => (kind === "go" && reached[0]) || "";

/** @param {About | undefined} fact */
export const sends = (fact) => fact?.channel?.operation === "send";
/** @param {About | undefined} fact */
export const receives = (fact) => fact?.channel?.operation === "receive";

// The place in a buffer that a step wrote: where its value went to, or came from.
/** @param {About} fact */
export const slotOf = ({ sources, channel }) => sources.find(({ object, of, wrote }) => object === "slot" && of === channel?.name && wrote);

// The channels that a step made or worked on, or those that it looked at where it took no case of a select.
/** @param {About} fact */
export function channelsOf({ kind, channel, made, sources }) {
  if (channel || made) return [channel?.name || made || ""];
  if (kind !== "select-wait" && kind !== "default") return [];
  return [...new Set(sources.filter(({ object }) => object === "gate").map(({ of }) => of))];
}
