// The owner of a session: the program's session, the log of its kept steps, and what was commanded. It is made whole and left whole:
// whatever still runs of a session that was left ends by itself.

import { CHANGES, goroutineOf, LENGTHY, QUERIES, wordsOf } from "../engine/protocol.js";
import { inCopy } from "./copy.js";
import { Known } from "./known.js";
import { commandsFor, inSource } from "./lines.js";
import { Log } from "./log.js";
import { Origin } from "./origin.js";
import { Program } from "../waiting/flows.js";
import { Reader } from "./reader.js";
import { NOTHING, TOO_MUCH, unshown } from "./scene.js";
import { isUnanswered, RemoteSession, SessionGone } from "../engine/remote.js";
import { runInPortions } from "./runs.js";
import { Statements } from "./statements.js";

/** @typedef {import("../engine/carry.js").Carried} Carried */

const KEPT = 5000; // commands that are kept for a link and for a reload
const TOLD = 2000; // steps: of a longer run the log is read of a copy of the session, since queries tell more of each step
const AT_ONCE = 1000; // rows that an answer has at most
const LONG = 20000; // steps: behind more, what may be a long answer is told by a copy
const CUT = new Set(["break", "memory"]); // ends of a run that come otherwise where the commands are taken again
/** @type {Reply} */
const NO_COMMAND = { lines: [], last: "? bad command", words: ["?", "bad", "command"], isOk: false };
/** @type {Reply} */
const NO_MEMORY = { lines: [], last: "no Q2", words: ["no", "Q2"], isOk: false };

// The source is refused; `errors` says where.
export class Refused extends Error {
  /** @param {string} errors */
  constructor(errors) {
    super(errors);
    this.errors = errors;
  }
}

// A session on a text with each statement on a line of its own, or on the text as it is where that form is not accepted.
/**
 * @param {Machine} machine
 * @param {Statements} statements
 */
async function openExpanded(machine, statements) {
  const remote = await RemoteSession.open(machine, statements.runText, true);
  if (remote.status === null || !statements.isExpanded) return remote;
  remote.close();
  statements.giveUp();
  return RemoteSession.open(machine, statements.runText, true);
}

export class Session {
  /**
   * @param {Machine} machine
   * @param {RemoteSession} user
   * @param {{source: string, carried: Carried | null, text: string, origin: Origin, statements: Statements}} given
   */
  constructor(machine, user, { source, carried, text, origin, statements }) {
    this.machine = machine;
    this.source = source;
    this.carried = carried;
    this.text = text; // that is run
    this.user = user;
    this.origin = origin;
    this.statements = statements;
    this.program = new Program(text, origin);
    this.log = new Log();
    /** @type {Map<string, string>} */
    this.clauses = new Map(); // that were named in a step that was a fault
    this.turn = Promise.resolve();
    this.reader = new Reader(user, statements, this.log, this.clauses, (act) => this.inTurn(act));
    this.known = new Known(this.reader);
    /** @type {string[]} */
    this.commands = []; // that changed it
    /** @type {Set<number>} */
    this.breakpoints = new Set(); // lines of the user's source
    this.goal = 0; // the line of a breakpoint that is set for one run, or 0
    this.scene = NOTHING;
    this.isLeft = false;
    this.isRunning = false;
    this.isUnsure = false; // of the steps that `redo` would take
    this.mostPrinting = Infinity; // steps behind which more was printed than can be shown
  }

  // Opens a session on a source, or on what it was carried over to; throws Refused where that is no program.
  /**
   * @param {Machine} machine
   * @param {string} source
   * @param {Carried | null} carried what is run in place of the source, where that is real Go
   */
  static async open(machine, source, carried = null) {
    const text = carried ? carried.text : source;
    const origin = new Origin(source, carried);
    const statements = new Statements(text, origin);
    const user = await openExpanded(machine, statements);
    if (user.status === null) return new Session(machine, user, { source, carried, text, origin, statements });
    user.close();
    if (user.fault) throw new SessionGone(user.reason);
    throw new Refused(user.errors);
  }

  get notes() {
    return this.reader.notes;
  }

  get order() {
    return this.reader.order;
  }

  // Why the session answers no more, or "".
  get gone() {
    return this.user.status === null ? "" : this.user.reason;
  }

  get undone() {
    return this.log.gone.size;
  }

  // Whether the commands are all kept, so that the session can be taken again from them.
  get isKept() {
    return this.commands.length <= KEPT;
  }

  // The commands that take the kept steps.
  get steps() {
    return this.log.steps(0, this.log.length).map((step) => stepCommand(step, this.clauses));
  }

  // Commands that lead to where the session stands.
  get taken() {
    return this.isKept ? [...this.commands] : this.steps;
  }

  // The line of the program that is run at which a run stops for a line of the user's source, or for one below it; 0 where there is none.
  /** @param {number} line */
  snap(line) {
    for (let at = line; at <= this.origin.lines.length; at++) {
      const found = this.origin.runLines(at).map((it) => this.statements.snap(it)).filter((it) => it && this.origin.lineOf(it) >= line);
      if (found.length || !this.origin.isCarried) return found[0] || 0;
    }
    return 0;
  }

  leave() {
    this.isLeft = true;
    this.isRunning = false;
    this.user.close();
  }

  // Does one thing after another: no command comes between a question and its answer.
  /**
   * @template T
   * @param {() => Promise<T>} act
   * @returns {Promise<T>}
   */
  inTurn(act) {
    const done = this.turn.then(act);
    this.turn = done.then(() => {}, () => {});
    return done;
  }

  // Does something in a copy of the session, which stands where this one does, and ends with that.
  /**
   * @template T
   * @param {(remote: RemoteSession) => Promise<T>} act
   * @returns {Promise<T>}
   */
  async inCopy(act, isClient = false) {
    const taken = await this.inTurn(async () => this.taken);
    return inCopy(this.machine, this.statements, taken, act, isClient);
  }

  // Performs one line and gives its reply; a blank line has none. The log follows. Queries are not for users.
  /**
   * @param {string} line
   * @returns {Promise<Reply>}
   */
  perform(line) {
    return this.inTurn(() => this.performNow(line.trim()));
  }

  /** @param {string} line */
  async performNow(line) {
    const [word] = wordsOf(line);
    if (QUERIES.has(word)) return NO_COMMAND;
    if (LENGTHY.has(word) && (this.log.length > LONG || !this.reader.prints.areFew(this.log.length))) return this.askCopy(line);
    const reply = await this.command(line);
    if (reply.isOk && word === "run") await this.readRun(Number(reply.words[1]));
    if (reply.isOk && CHANGES.has(word)) this.isUnsure = false;
    return reply;
  }

  // The reply of a copy to a question. Where that has no memory for it, the copy ends alone.
  /** @param {string} line */
  async askCopy(line, shape = "replies") {
    try {
      return await inCopy(this.machine, this.statements, this.taken, (remote) => remote.ask(line, shape));
    } catch (fault) {
      if (!isUnanswered(fault)) throw fault;
      return NO_MEMORY;
    }
  }

  // Gives a command to the session. The log changes with it, but not by a run.
  /**
   * @param {string} line
   * @returns {Promise<Reply>}
   */
  async command(line) {
    const words = wordsOf(line);
    const replies = await this.user.askAll(commandsFor(line, this.statements));
    const reply = inSource(line, replies.find(({ isOk }) => !isOk) || replies[0], this.statements);
    this.note(words, reply);
    if (words[0] === "redo" && this.isUnsure && reply.isOk) await this.readNew();
    else if (!this.isRunning) this.notes.forget(this.log.apply(line, reply));
    if (reply.isOk && words[0] === "break") this.breakpoints.add(Number(words[1]));
    if (reply.isOk && words[0] === "clear") this.breakpoints.delete(Number(words[1]));
    return reply;
  }

  /**
   * @param {string[]} words
   * @param {Reply} reply
   */
  note(words, reply) {
    if (words[0] === "step" && words[2] && reply.words[2] === "fault") this.clauses.set(reply.words[1], words[2]);
    const line = words[0] === "run" && CUT.has(reply.words[2]) ? `run ${reply.words[1]}` : words.join(" ");
    if (reply.isOk && CHANGES.has(words[0]) && this.commands.length <= KEPT) this.commands.push(line);
  }

  // Reads so many steps that a run has taken. For clients a long log is told at ten times its length, and so a copy tells it.
  /** @param {number} count */
  async readRun(count) {
    if (count <= TOLD) return this.readNew();
    const taken = this.isKept ? [...this.commands] : [...this.steps, `run ${count}`];
    try {
      const [columns] = await inCopy(this.machine, this.statements, taken, (remote) => remote.questions(["log"], "columns"));
      this.log.load(columns);
    } catch (fault) {
      if (this.gone || !isUnanswered(fault)) throw fault;
      await this.readNew();
    }
  }

  // Reads the steps behind those of the log.
  async readNew() {
    const { log, reader } = this;
    for (let isFull = true; isFull; ) {
      const told = await reader.about(log.length, log.length + AT_ONCE);
      for (const fact of told) {
        reader.facts.put(log.length, fact);
        log.append(goroutineOf(fact.id), fact.kind);
      }
      isFull = told.length === AT_ONCE;
    }
  }

  // Reads all steps anew, between two commands. What can be done again is not known then.
  renew() {
    return this.inTurn(async () => {
      this.log.restart([]);
      this.log.gone.clear();
      this.notes.clear();
      this.isUnsure = true;
      await this.readNew();
    });
  }

  // Sets the breakpoints of the page, none of which is new to a person: no transcript has them.
  /** @param {Iterable<number>} lines */
  async setBreaks(lines) {
    const wanted = new Set(lines);
    for (const line of this.breakpoints) if (!wanted.has(line)) await this.perform(`clear ${line}`);
    for (const line of wanted) if (!this.breakpoints.has(line)) await this.perform(`break ${line}`);
  }

  // A run that shows how far it is: `going(taken)` is told.
  /**
   * @param {number} count
   * @param {(taken: number) => void} going
   */
  run(count, going) {
    return this.inTurn(() => this.runNow(count, going));
  }

  /**
   * @param {number} count
   * @param {(taken: number) => void} going
   */
  async runNow(count, going) {
    this.isRunning = true;
    const before = this.commands.length;
    const goesOn = (/** @type {number} */ taken) => {
      if (!this.isLeft) going(taken);
      return this.isRunning;
    };
    const both = { run: (/** @type {number} */ steps) => this.command(`run ${steps}`), undo: () => this.command("undo"), hasBreaks: () => this.breakpoints.size > 0 };
    try {
      const end = await runInPortions(both, count, goesOn);
      this.log.gone.clear();
      if (end.taken) this.commands.splice(before, Infinity, `run ${end.taken}`);
      await this.readRun(end.taken);
      return end;
    } finally {
      this.isRunning = false;
    }
  }

  // What was printed, where it may be much.
  /** @returns {Promise<Tail>} */
  async readConsole() {
    const { length } = this.log;
    const console = await this.inTurn(() => this.askCopy("console", "tail"));
    if (console.isOk) this.reader.prints.told(length, console.count);
    else this.mostPrinting = length;
    return console.isOk ? console : TOO_MUCH;
  }

  // Reads what the panes show.
  async look() {
    try {
      this.scene = await this.reader.scene();
      if (this.scene.console === TOO_MUCH && this.log.length < this.mostPrinting) this.scene.console = await this.readConsole();
    } catch (fault) {
      if (this.gone || !isUnanswered(fault)) throw fault;
      this.scene = unshown(/** @type {Error} */ (fault).message);
    }
    return this.scene;
  }
}

// The command that takes a step of the log again. `clauses` tells which clause a fault was met in, which its kind leaves out.
/**
 * @param {{id: string, kind: string}} step
 * @param {Map<string, string>} clauses
 */
export function stepCommand({ id, kind }, clauses) {
  const goroutine = goroutineOf(id);
  const [word, number] = kind.split(" ");
  const clause = word === "pick" ? number : clauses.get(id);
  return clause ? `step ${goroutine} ${clause}` : `step ${goroutine}`;
}
