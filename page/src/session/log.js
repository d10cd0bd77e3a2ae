// The kept steps, in the order of the log: a column for each goroutine, a row for each step. Replies change it step by step, so that
// a long log need not be read anew.

import { compareNames, goroutineOf, listedSteps, numberOf, stepName, wordsOf } from "../engine/protocol.js";
import { endsAll, word } from "./edges.js";

class Column {
  /** @param {string} name */
  constructor(name) {
    this.name = name;
    /** @type {number[]} */
    this.rows = []; // of each of its steps
    this.started = 0; // goroutines
    this.made = 0; // channels
  }

  /**
   * @param {string} kind
   * @param {number} by
   */
  count(kind, by) {
    if (word(kind) === "go") this.started += by;
    if (word(kind) === "make") this.made += by;
  }
}

export class Log {
  constructor() {
    /** @type {Column[]} */
    this.columns = []; // of each row
    /** @type {string[]} */
    this.kinds = []; // of each row
    /** @type {Map<string, Column>} */
    this.byName = new Map();
    /** @type {Map<string, string>} */
    this.gone = new Map(); // what `redo` would take: the steps with their kinds
    this.changedFrom = Infinity; // no row before this one was changed since it was last set
    this.version = 0; // counts the changes
    /** @type {((row: number) => void)[]} */
    this.watchers = []; // that are told of rows that changed
    /** @type {string[] | null} */
    this.named = null;
    this.column("g0");
  }

  /** @param {string} name */
  column(name) {
    let column = this.byName.get(name);
    if (!column) this.byName.set(name, (column = new Column(name)));
    return column;
  }

  get length() {
    return this.columns.length;
  }

  /** @param {number} row */
  id(row) {
    const column = this.columns[row];
    return stepName(column.name, this.numberAt(row));
  }

  /** @param {number} row */
  numberAt(row) {
    const { rows } = this.columns[row];
    let [low, high] = [0, rows.length];
    while (high - low > 1) {
      const middle = (low + high) >> 1;
      if (rows[middle] <= row) low = middle;
      else high = middle;
    }
    return low + 1;
  }

  /**
   * @param {number} row
   * @returns {Step}
   */
  step(row) {
    const number = this.numberAt(row);
    const goroutine = this.columns[row].name;
    return { id: stepName(goroutine, number), goroutine, number, kind: this.kinds[row], row };
  }

  /**
   * @param {number} from
   * @param {number} to
   */
  steps(from, to) {
    const found = [];
    for (let row = Math.max(0, from); row < Math.min(to, this.length); row++) found.push(this.step(row));
    return found;
  }

  // The row of a step, or -1.
  /** @param {string | null} id */
  row(id) {
    if (!id) return -1;
    return this.byName.get(goroutineOf(id))?.rows[numberOf(id) - 1] ?? -1;
  }

  /** @param {string} id */
  kindOf(id) {
    return this.kinds[this.row(id)] || "";
  }

  // The step of the same goroutine before this one, or "".
  /** @param {string} id */
  before(id) {
    return numberOf(id) > 1 ? stepName(goroutineOf(id), numberOf(id) - 1) : "";
  }

  // Whether the program has ended, or a fault stopped it.
  get isOver() {
    return this.length > 0 && endsAll(this.kinds[this.length - 1]);
  }

  get end() {
    return this.isOver ? this.step(this.length - 1) : null;
  }

  // The names of all goroutines that were started, in their order.
  get names() {
    this.named ??= ["g0", ...this.given("started", ".")].sort(compareNames);
    return this.named;
  }

  get channels() {
    return this.given("made", "/c").sort(compareNames);
  }

  /**
   * @param {"started" | "made"} what
   * @param {string} between
   */
  given(what, between) {
    return [...this.byName.values()].flatMap((column) => Array.from({ length: column[what] }, (_, at) => `${column.name}${between}${at + 1}`));
  }

  // Tells of each row from which on the log changed; new rows are no change.
  /** @param {(row: number) => void} seen */
  watch(seen) {
    this.watchers.push(seen);
  }

  /** @param {number} row */
  touch(row) {
    this.version++;
    this.changedFrom = Math.min(this.changedFrom, row);
    for (const seen of this.watchers) seen(row);
  }

  /**
   * @param {string} goroutine
   * @param {string} kind
   */
  append(goroutine, kind) {
    this.version++;
    const column = this.column(goroutine);
    column.rows.push(this.length);
    column.count(kind, 1);
    this.columns.push(column);
    this.kinds.push(kind);
    if (kind === "go") this.named = null;
  }

  // Takes the last step away, and gives it.
  pop() {
    const step = this.step(this.length - 1);
    const column = /** @type {Column} */ (this.columns.pop());
    this.kinds.pop();
    column.rows.pop();
    column.count(step.kind, -1);
    if (step.kind === "go") this.named = null;
    this.touch(this.length);
    return step;
  }

  // Makes the log anew of pairs of goroutine and kind.
  /** @param {{goroutine: string, kind: string}[]} steps */
  restart(steps, from = 0) {
    while (this.length > from) this.pop();
    for (const { goroutine, kind } of steps) this.append(goroutine, kind);
  }

  /** @param {LogColumns} read */
  load({ names, kinds, of, kindOf }) {
    let same = 0;
    const isSame = (/** @type {number} */ row) => this.columns[row].name === names[of[row]] && this.kinds[row] === kinds[kindOf[row]];
    while (same < Math.min(this.length, of.length) && isSame(same)) same++;
    while (this.length > same) this.pop();
    for (let row = same; row < of.length; row++) this.append(names[of[row]], kinds[kindOf[row]]);
  }

  // Changes the log as a reply says, and gives the names of the steps that went; a run must be read anew.
  /**
   * @param {string} line
   * @param {Reply} reply
   * @returns {string[]}
   */
  apply(line, reply) {
    const [command, ...rest] = wordsOf(line);
    if (reply.words[1] === "B6" && ["back", "redo"].includes(command)) return this.applyPart(command, listedSteps(reply));
    if (!reply.isOk) return [];
    if (command === "step") this.take(goroutineOf(reply.words[1]), reply.words.slice(2).join(" "));
    if (command === "run" && Number(reply.words[1])) this.gone.clear();
    if (command === "redo") this.again(listedSteps(reply));
    if (command === "order") this.reorder(rest);
    if (command === "undo") return this.remove([reply.words[1]]);
    return command === "back" ? this.remove(listedSteps(reply)) : [];
  }

  // Memory ran out in the midst: what went is gone, or is there again, and nothing can be done again.
  /**
   * @param {string} command
   * @param {string[]} ids
   */
  applyPart(command, ids) {
    const went = command === "back" ? this.remove(ids) : [];
    if (command === "redo") this.again(ids);
    this.gone.clear();
    return went;
  }

  /**
   * @param {string} goroutine
   * @param {string} kind
   */
  take(goroutine, kind) {
    this.append(goroutine, kind);
    this.gone.clear();
  }

  /** @param {string[]} ids */
  again(ids) {
    for (const id of ids) this.append(goroutineOf(id), this.gone.get(id) || "pure");
    this.gone.clear();
  }

  /** @param {string[]} ids */
  remove(ids) {
    const going = new Set(ids);
    const first = ids.reduce((least, id) => (this.row(id) < 0 ? least : Math.min(least, this.row(id))), this.length);
    this.gone = new Map(ids.map((id) => [id, this.kindOf(id)]));
    const rest = this.steps(first, this.length).filter(({ id }) => !going.has(id));
    this.restart(rest, first);
    return ids;
  }

  /** @param {string[]} ids */
  reorder(ids) {
    const first = ids.findIndex((id, row) => this.row(id) !== row);
    this.gone.clear();
    if (first < 0) return;
    const rest = ids.slice(first).map((id) => ({ goroutine: goroutineOf(id), kind: this.kindOf(id) }));
    this.restart(rest, first);
  }

  // The command that moves a step to another row.
  /**
   * @param {string} id
   * @param {number} row
   */
  orderWith(id, row) {
    const names = this.steps(0, this.length).map((step) => step.id).filter((name) => name !== id);
    names.splice(row, 0, id);
    return `order ${names.join(" ")}`;
  }
}

// The names of goroutines and channels that the first rows of a log gave.
/**
 * @param {Log} log
 * @param {number} row
 */
export function namesAt(log, row) {
  /** @type {{[word: string]: Map<string, number>}} */
  const counts = { go: new Map(), make: new Map() };
  const names = ["g0"];
  const channels = [];
  for (let at = 0; at < row; at++) {
    const kind = log.kinds[at];
    if (kind !== "go" && kind !== "make") continue;
    const owner = log.columns[at].name;
    const count = (counts[kind].get(owner) || 0) + 1;
    counts[kind].set(owner, count);
    if (kind === "go") names.push(`${owner}.${count}`);
    else channels.push(`${owner}/c${count}`);
  }
  return { names: names.sort(compareNames), channels: channels.sort(compareNames) };
}
