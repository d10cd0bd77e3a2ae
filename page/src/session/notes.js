// What is shown of each kept step: its statement, what it did over a channel, what it printed, and the values. The program tells the
// first of these of each step. Values are read in the states before it and after it, where somebody looks.

import { parseGoroutine } from "../engine/protocol.js";
import { isWait } from "./edges.js";
import { channelsOf, receives, sends, slotOf, startedBy, wokenBy } from "./facts.js";
import { caseOf, isReceive, metCase, operationOf, receivedPart } from "./messages.js";

export const FOLLOWED = 300000; // steps: of a longer log no values and prints are read
const AT_ONCE = 500; // rows
const NEAR = 2000; // rows: the value of a step that is further away is not looked for

/** @typedef {{row: number, view: string}} Question */

export class Notes {
  /**
   * @param {import("./reader.js").Reader} reader
   * @param {Map<string, string>} clauses that were named in a step that was a fault
   */
  constructor(reader, clauses) {
    this.reader = reader;
    this.clauses = clauses;
    /** @type {Map<string, Note>} */
    this.notes = new Map();
  }

  get size() {
    return this.notes.size;
  }

  /** @param {string} id */
  get(id) {
    return this.notes.get(id);
  }

  clear() {
    this.notes.clear();
  }

  // Forgets steps that are no longer kept. The waits that they ended go on.
  /** @param {string[]} ids */
  forget(ids) {
    for (const id of ids) {
      for (const wait of this.notes.get(id)?.woke || []) {
        const waited = this.notes.get(wait);
        if (waited) waited.taken = waited.received = "";
      }
      this.notes.delete(id);
    }
  }

  // Finds the notes of the rows between two, with their values or without, while nobody is in haste.
  /**
   * @param {number} from
   * @param {number} to
   * @param {{hasValues?: boolean, isOld?: () => boolean, seen?: () => void}} how `seen` is told of each part that is found
   */
  async find(from, to, { hasValues = true, isOld = () => false, seen = () => {} } = {}) {
    const { log } = this.reader;
    for (let row = Math.max(0, from); row < Math.min(to, log.length) && !isOld(); seen()) {
      const end = Math.min(to, log.length, row + (hasValues ? this.reader.portion : AT_ONCE));
      await this.tell(row, end);
      if (hasValues && !isOld()) await this.value(row, end);
      row = end;
    }
  }

  // The rows between two whose steps are known, with what is told of them.
  /**
   * @param {number} from
   * @param {number} to
   */
  known(from, to) {
    const { log, facts } = this.reader;
    return log.steps(from, to).flatMap((step) => {
      const fact = facts.at(step.row);
      return fact?.id === step.id ? [{ step, fact }] : [];
    });
  }

  // Finds what the program tells of the steps between two rows.
  /**
   * @param {number} from
   * @param {number} to
   */
  async tell(from, to) {
    const { log, facts } = this.reader;
    if (log.steps(from, to).every(({ id }) => this.notes.has(id))) return;
    await facts.need(from, to);
    const rows = this.known(from, to);
    for (const { step, fact } of rows) if (!this.notes.has(step.id)) this.notes.set(step.id, this.noteOf(step, fact));
    await this.readPrinted(to, rows.filter(({ fact }) => fact.prints).map(({ step }) => step.id));
  }

  /**
   * @param {Step} step
   * @param {About} fact
   * @returns {Note}
   */
  noteOf(step, fact) {
    const { statements } = this.reader;
    const line = fact.at && fact.at.line;
    const statement = statements.at(line);
    const number = /^pick (\d+)$/.exec(step.kind)?.[1] || this.clauses.get(step.id);
    const taken = (number && statement?.clauses[Number(number) - 1]) || "";
    const text = taken || statement?.text || "";
    const turn = this.turnOf(step, statement);
    return {
      line: statements.lineOf(line), statement, before: null, after: null, isValued: false, printed: [], woke: wokenBy(fact), started: startedBy(fact), made: fact.made || "", channels: channelsOf(fact), cases: [], turn, taken,
      received: "", part: isReceive(step.kind) ? receivedPart(text, turn) : "", over: operationOf(fact, text, []),
    };
  }

  // How many receives of its statement the goroutine has done before a step; NaN where the step before is not known.
  /**
   * @param {Step} step
   * @param {Statement | null} statement
   */
  turnOf({ id }, statement) {
    const { log } = this.reader;
    const before = log.before(id);
    if (!before) return 0;
    const note = this.notes.get(before);
    if (!note) return NaN;
    return note.statement === statement && isReceive(log.kindOf(before)) ? note.turn + 1 : 0;
  }

  // Gives steps the lines that they printed: the last ones behind a row. Where the log has changed meanwhile, they are to be told anew.
  /**
   * @param {number} row
   * @param {string[]} printing
   */
  async readPrinted(row, printing) {
    const { log, prints } = this.reader;
    const { version } = log;
    if (!printing.length || log.length > FOLLOWED || !prints.areFew(row)) return;
    const replies = await this.reader.views(row, ["console"], () => version === log.version);
    if (version !== log.version) return this.forget(printing);
    const lines = replies?.[0].lines?.slice(-printing.length) || [];
    printing.forEach((id, at) => {
      const note = this.notes.get(id);
      if (note && lines[at] !== undefined) note.printed = [lines[at]];
    });
  }

  // Reads the values of the steps between two rows, and of those that gave them a value.
  /**
   * @param {number} from
   * @param {number} to
   */
  async value(from, to) {
    const wanted = this.known(from, to).filter(({ step }) => this.notes.get(step.id)?.isValued === false);
    const rows = [...this.givers(wanted, from), ...wanted];
    const { version } = this.reader.log;
    const frames = await this.framesOf(rows.flatMap(({ step, fact }) => this.questions(step, fact)), () => version === this.reader.log.version);
    if (!frames || version !== this.reader.log.version) return;
    for (const { step, fact } of rows) this.keep(step, fact, frames);
  }

  // The steps above a row, but near it, that may have given the value that a step received, and were not looked at yet.
  /**
   * @param {{fact: About}[]} rows
   * @param {number} from
   */
  givers(rows, from) {
    const { log } = this.reader;
    const ids = rows.flatMap(({ fact }) => (receives(fact) ? [slotOf(fact)?.step || "", ...wokenBy(fact)] : []));
    const near = [...new Set(ids)].map((id) => log.row(id)).filter((row) => row >= Math.max(0, from - NEAR) && row < from);
    return near.sort((one, other) => one - other).flatMap((row) => this.known(row, row + 1)).filter(({ step }) => this.notes.get(step.id)?.isValued === false);
  }

  // Which states tell the values of a step: the one before tells what it sends, or would, and both what it gives to variables.
  /**
   * @param {Step} step
   * @param {About} fact
   * @returns {Question[]}
   */
  questions({ row, goroutine, kind }, fact) {
    const view = `show ${goroutine}`;
    const before = sends(fact) || kind === "select-wait" || fact.given.length ? [{ row, view }] : [];
    return fact.given.length ? [...before, { row: row + 1, view }] : before;
  }

  // The innermost frames that are asked for, by row and question; nothing where nobody wants them any more.
  /**
   * @param {Question[]} questions
   * @param {() => boolean} isWanted
   */
  async framesOf(questions, isWanted) {
    const { reader } = this;
    /** @type {Map<string, StackFrame>} */
    const found = new Map();
    const asked = [...new Map(questions.map((it) => [`${it.row} ${it.view}`, it])).values()].sort((one, other) => one.row - other.row);
    for (let at = 0; at < asked.length; at += reader.portion) {
      const some = asked.slice(at, at + reader.portion);
      await reader.goNear(some[0].row, isWanted);
      const replies = await reader.inTurn(async () => (isWanted() ? reader.ask(some) : null));
      if (!replies) return null;
      some.forEach(({ row, view }, which) => replies[which].isOk && found.set(`${row} ${view}`, innermost(replies[which])));
    }
    return found;
  }

  // Keeps the values of a step, and tells the waits that it ended what they were met by.
  /**
   * @param {Step} step
   * @param {About} fact
   * @param {Map<string, StackFrame>} frames
   */
  keep({ id, row, kind, goroutine }, fact, frames) {
    const note = this.notes.get(id) || this.noteOf(this.reader.log.step(row), fact);
    this.notes.set(id, note);
    const frame = (/** @type {number} */ at) => frames.get(`${at} show ${goroutine}`) || null;
    [note.before, note.after, note.isValued] = [frame(row), fact.given.length ? frame(row + 1) : null, true];
    const variables = note.before?.variables || [];
    note.over = operationOf(fact, note.over.text, variables);
    if (kind === "select-wait") note.cases = (note.statement?.clauses || []).map((it) => caseOf(it, variables));
    if (receives(fact) && !isWait(kind)) note.received = this.valueOf(note, slotOf(fact)?.step);
    for (const wait of kind === "close" ? [] : note.woke) this.meet(this.notes.get(wait), note);
  }

  /**
   * @param {Note | undefined} waited
   * @param {Note} note
   */
  meet(waited, { over }) {
    if (!waited) return;
    waited.taken = metCase(waited.cases, over)?.text || "";
    if (over.isSend) waited.received = over.sent;
  }

  // The value that a step received: out of a buffer the one that a step put there, and else that of the sender that it let go on.
  /**
   * @param {Note} note
   * @param {string | null | undefined} put
   */
  valueOf(note, put) {
    const giver = put ? this.notes.get(put) : note;
    if (giver?.over.isSend) return giver.over.sent;
    const wait = giver && this.notes.get(giver.woke[0]);
    return (wait && (wait.cases.length ? metCase(wait.cases, giver.over) : wait.over)?.sent) || "";
  }
}

// The innermost frame in a reply, and how many there are.
/**
 * @param {{lines: string[]}} reply
 * @returns {StackFrame}
 */
function innermost(reply) {
  const { frames } = parseGoroutine(reply);
  return { depth: frames.length, variables: frames[0]?.variables || [] };
}
