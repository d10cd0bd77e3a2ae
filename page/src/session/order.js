// The causal order of steps, by what the program tells of each: the objects that it touched, and the step that had written each last.
//
// A step depends directly on those writers, and where it writes, on those that have read the object since. It goes through the log row
// by row. So a long log is gone through from some rows above those that are wanted, and what came before these is not known.

import { edgeKind, endsAll, word } from "./edges.js";
import { goroutineOf, numberOf, stepName } from "../engine/protocol.js";
import { receives, sends, slotOf, wokenBy, wroteLast } from "./facts.js";

export const WHOLE = 20000; // steps up to which a log is gone through from its start
const BEFORE = 2000; // rows above those that are wanted, of a longer one
const AT_ONCE = 500; // rows

/** @typedef {Map<string, number>} Clock how many steps of each other goroutine a step depends on */
/** @typedef {{id: string, readers: [string, string[]][]}} Taken a step that was gone through, and who had read what it touched */

/** @type {Clock} */
const NOTHING = new Map();

export class Order {
  /**
   * @param {import("./log.js").Log} log
   * @param {import("./facts.js").Facts} facts
   */
  constructor(log, facts) {
    this.log = log;
    this.facts = facts;
    this.first = 0;
    /** @type {Taken[]} */
    this.taken = []; // of the rows from the first one on
    /** @type {Map<string, Clock>} */
    this.clocks = new Map();
    /** @type {Map<string, Edge[]>} */
    this.edges = new Map();
    /** @type {Map<string, string[]>} */
    this.readers = new Map(); // of each object, the steps that read it since it was written
    log.watch((row) => this.goBack(row));
  }

  // Begins at a row.
  /** @param {number} row */
  begin(row) {
    this.first = row;
    this.taken = [];
    for (const known of [this.clocks, this.edges, this.readers]) known.clear();
  }

  get next() {
    return this.first + this.taken.length;
  }

  // Forgets the rows from this one on.
  /** @param {number} row */
  goBack(row) {
    while (this.taken.length && this.next > row) {
      const { id, readers } = /** @type {Taken} */ (this.taken.pop());
      for (const [object, before] of readers.reverse()) this.readers.set(object, before);
      this.clocks.delete(id);
      this.edges.delete(id);
    }
  }

  // Finds the edges into the steps between two rows.
  /**
   * @param {number} from
   * @param {number} to
   */
  async find(from, to) {
    const { log, facts } = this;
    const first = log.length <= WHOLE ? 0 : Math.max(0, from - BEFORE);
    if (this.first > first || this.next < first) this.begin(first);
    const { version } = log;
    for (let last = Math.min(to, log.length); this.next < last && version === log.version; ) {
      const end = Math.min(last, this.next + AT_ONCE);
      await facts.need(this.next, end);
      if (!this.takeTo(end)) return;
    }
  }

  // Goes on to a row, and says whether it came there.
  /** @param {number} row */
  takeTo(row) {
    while (this.next < row) {
      const fact = this.facts.at(this.next);
      if (!fact || this.log.id(this.next) !== fact.id) return false;
      this.take(fact);
    }
    return true;
  }

  // How many steps of each goroutine a step depends on, itself among them; nothing where that is not known.
  /** @param {string} id */
  causes(id) {
    const clock = this.first ? undefined : this.clocks.get(id);
    return clock && new Map([...clock, [goroutineOf(id), numberOf(id)]]);
  }

  // Of each goroutine the first step that depends on a step, itself among them, where the whole log was gone through.
  /**
   * @param {string} id
   * @returns {Map<string, number> | undefined}
   */
  consequences(id) {
    if (this.first || this.next !== this.log.length) return undefined;
    const found = new Map();
    for (const { name, rows } of this.log.byName.values()) {
      let [low, high] = [0, rows.length]; // later steps of a goroutine depend on more
      while (low < high) {
        const middle = (low + high) >> 1;
        if (this.restsOn(stepName(name, middle + 1), id)) high = middle;
        else low = middle + 1;
      }
      if (low < rows.length) found.set(name, low + 1);
    }
    return found;
  }

  /** @param {About} fact */
  take(fact) {
    const { id } = fact;
    const own = this.log.before(id);
    const known = (own && this.clocks.get(own)) || NOTHING;
    const { sources, readers } = this.sourcesOf(fact);
    this.clocks.set(id, endsAll(fact.kind) ? this.all(id) : this.joined(known, sources, goroutineOf(id)));
    this.edges.set(id, this.into(fact, sources, own));
    this.taken.push({ id, readers });
  }

  // The steps of other goroutines that wrote last what a step touches, or have read since what it writes. It is among the readers then.
  /** @param {About} fact */
  sourcesOf({ id, sources }) {
    const goroutine = goroutineOf(id);
    const isOther = (/** @type {string | null} */ step) => step && goroutineOf(step) !== goroutine;
    /** @type {Set<string>} */
    const found = new Set();
    /** @type {[string, string[]][]} */
    const readers = [];
    for (const { object, of, slot, step, wrote } of sources) {
      const name = `${object} ${of} ${slot ?? ""}`;
      const before = this.readers.get(name) || [];
      readers.push([name, before]);
      for (const it of [step, ...(wrote ? before : [])]) if (it && isOther(it)) found.add(it);
      this.readers.set(name, wrote ? [] : [...before.filter(isOther), id]);
    }
    return { sources: [...found], readers };
  }

  // What a step depends on: what the one before it does, and its sources with what these do.
  /**
   * @param {Clock} known
   * @param {string[]} sources
   * @param {string} goroutine
   */
  joined(known, sources, goroutine) {
    if (!sources.length) return known;
    const clock = new Map(known);
    for (const id of sources) {
      for (const [name, count] of [...(this.clocks.get(id) || NOTHING), /** @type {[string, number]} */ ([goroutineOf(id), numberOf(id)])]) {
        if (name !== goroutine) clock.set(name, Math.max(count, clock.get(name) || 0));
      }
    }
    return clock;
  }

  // The end of the program depends on every step before it.
  /** @param {string} id */
  all(id) {
    const row = this.log.row(id);
    /** @type {Clock} */
    const clock = new Map();
    for (const { name, rows } of this.log.byName.values()) {
      const count = rows.length && rows[rows.length - 1] < row ? rows.length : rows.filter((it) => it < row).length;
      if (count && name !== goroutineOf(id)) clock.set(name, count);
    }
    return clock;
  }

  // The edges into a step: from its sources on which no other one rests, nor the step before it, and from the sender whose wait it ended,
  // and the step that ended its own wait. The end of the program has one from the close that it met alone.
  /**
   * @param {About} fact
   * @param {string[]} sources
   * @param {string} own
   */
  into(fact, sources, own) {
    const { id, kind } = fact;
    const isImplied = (/** @type {string} */ it) => (own && this.restsOn(own, it)) || sources.some((other) => other !== it && this.restsOn(other, it));
    const waker = endsAll(kind) ? "" : wroteLast(fact, goroutineOf(id));
    const isTold = (/** @type {string} */ it) => it === waker || (wokenBy(fact).includes(it) && this.isMessage(fact, it));
    const found = sources.filter((it) => (endsAll(kind) ? this.log.kindOf(it) === "close" && !isImplied(it) : isTold(it) || !isImplied(it)));
    return found.filter((it) => this.isShown(it, isTold(it))).sort((one, other) => this.compare(one, other)).map((from) => ({
      from, to: id, kind: edgeKind(this.log.kindOf(from), this.isMessage(fact, from)),
    }));
  }

  // Edges stand in the order in which their goroutines began.
  /**
   * @param {string} one
   * @param {string} other
   */
  compare(one, other) {
    const begun = (/** @type {string} */ id) => this.log.row(stepName(goroutineOf(id), 1));
    return begun(one) - begun(other) || this.log.row(one) - this.log.row(other);
  }

  // Of a step above the rows that were gone through it is not known what rests on it. It is shown where it gave something.
  /**
   * @param {string} from
   * @param {boolean} isTold
   */
  isShown(from, isTold) {
    return isTold || this.log.row(from) >= this.first || word(this.log.kindOf(from)) === "close";
  }

  // Whether a step took the value of another one: out of the buffer, of a sender that waited, or of one that ended its wait.
  /**
   * @param {About} fact
   * @param {string} from
   */
  isMessage(fact, from) {
    const giver = this.facts.of(from);
    if (receives(fact) && slotOf(fact)?.step === from) return word(this.log.kindOf(from)) === "buffer" || sends(giver);
    if (receives(fact) && wokenBy(fact).includes(from)) return !slotOf(fact);
    return wroteLast(fact, goroutineOf(fact.id)) === from && (word(this.log.kindOf(from)) === "hand" || sends(giver));
  }

  /**
   * @param {string} id
   * @param {string} earlier
   */
  restsOn(id, earlier) {
    if (goroutineOf(id) === goroutineOf(earlier)) return numberOf(id) >= numberOf(earlier);
    return (this.clocks.get(id)?.get(goroutineOf(earlier)) || 0) >= numberOf(earlier);
  }
}
