// Reads a session of the program that stands at the end of a log: its states, and what was taken, done and printed. It asks by queries,
// which change nothing and make no entry in the journal (docs/PROTOCOL.md).

import { Facts } from "./facts.js";
import { namesAt } from "./log.js";
import { Notes } from "./notes.js";
import { Order } from "./order.js";
import { Prints } from "./prints.js";
import { placed, readScene } from "./scene.js";
import { parseGoroutine } from "../engine/protocol.js";
import { Unanswered } from "../engine/remote.js";

// A query compares two logs. So behind a longer log the last state is asked for by commands, which enter the journal.
const LONG = 20000;
const STRIDE = 20000; // steps that are gone in one exchange, to a state that is far from the one shown last
const COMPARED = 1000000; // steps of logs that are compared in one exchange
const AT_ONCE = 200; // questions in one exchange

/** @typedef {import("../engine/remote.js").RemoteSession} RemoteSession */
/** @typedef {<T>(act: () => Promise<T>) => Promise<T>} Turns does one thing after another */

/** @type {Turns} */
const atOnce = (act) => act();

export class Reader {
  /**
   * @param {RemoteSession} remote
   * @param {import("./statements.js").Statements} statements
   * @param {import("./log.js").Log} log
   * @param {Map<string, string>} clauses that were named in a step that was a fault
   * @param {Turns} inTurn
   */
  constructor(remote, statements, log, clauses, inTurn = atOnce) {
    this.remote = remote;
    this.statements = statements;
    this.log = log;
    this.inTurn = inTurn;
    this.place = 0; // behind so many steps a state was shown last
    this.prints = new Prints(statements, log);
    this.facts = new Facts(log, (from, to) => inTurn(() => this.about(from, to)));
    this.order = new Order(log, this.facts);
    this.notes = new Notes(this, clauses);
  }

  // What is told of the steps between two rows, of at most 1,000.
  /**
   * @param {number} from
   * @param {number} to
   * @returns {Promise<About[]>}
   */
  async about(from, to) {
    const [answer] = await this.remote.askAll([`about ${from + 1} ${to}`], "told");
    if (!answer.about) throw new Unanswered(String(answer.text).trim());
    return answer.about;
  }

  // The replies to questions about states: each is asked behind so many steps.
  /**
   * @param {{row: number, view: string}[]} questions
   * @returns {Promise<any[]>}
   */
  ask(questions, shape = "tail") {
    const { log, remote } = this;
    const isLast = (/** @type {number} */ row) => row === log.length && row > LONG;
    this.place = questions.reduce((place, { row }) => (isLast(row) ? place : row), this.place);
    return remote.askAll(questions.map(({ row, view }) => (isLast(row) ? view : `at ${row} ${view}`)), shape);
  }

  // How many questions about a state are asked in one exchange.
  get portion() {
    return Math.max(4, Math.min(AT_ONCE, Math.floor(COMPARED / Math.max(1, this.log.length))));
  }

  // Goes near the state behind so many steps, a part of the way in each exchange, while somebody wants it.
  /** @param {number} row */
  async goNear(row, isWanted = () => true) {
    const stride = this.remote.machine.suspends ? STRIDE : Infinity; // else each exchange goes the whole way
    while (isWanted() && row <= this.log.length && Math.abs(row - this.place) > stride) {
      await this.inTurn(async () => {
        const from = Math.min(this.place, this.log.length);
        await this.ask([{ row: from + Math.max(-stride, Math.min(stride, row - from)), view: "show g0" }]);
      });
    }
  }

  // The replies to questions about one state, in portions; nothing where nobody wants them any more.
  /**
   * @param {number} row
   * @param {string[]} views
   */
  async views(row, views, isWanted = () => true) {
    await this.goNear(row, isWanted);
    const replies = [];
    for (let at = 0; at < views.length; at += this.portion) {
      const some = views.slice(at, at + this.portion).map((view) => ({ row, view }));
      const found = await this.inTurn(async () => (isWanted() && row <= this.log.length ? this.ask(some) : null));
      if (!found) return null;
      replies.push(...found);
    }
    return replies;
  }

  // What panes show of the last state.
  /** @returns {Promise<Scene>} */
  scene() {
    const { log, prints } = this;
    const ask = (/** @type {string[]} */ views) => this.ask(views.map((view) => ({ row: log.length, view })));
    return this.inTurn(async () => {
      const scene = await readScene(ask, log, this.statements, { isAny: prints.isAny, areFew: prints.areFew(log.length) });
      if (scene.console.isOk) prints.told(log.length, scene.console.count);
      return scene;
    });
  }

  // The panes behind so many steps, or nothing where nobody wants them any more.
  /**
   * @param {number} row
   * @param {() => boolean} isWanted
   * @returns {Promise<Scene | null>}
   */
  async sceneAt(row, isWanted = () => true) {
    let isMissed = false;
    const ask = async (/** @type {string[]} */ views) => {
      const replies = await this.views(row, views, isWanted);
      isMissed = !replies;
      return replies || views.map(() => ({ isOk: false, last: "" }));
    };
    try {
      return await readScene(ask, namesAt(this.log, row), this.statements, { isAny: this.prints.isAny, areFew: this.prints.areFew(row) });
    } catch (fault) {
      if (isMissed) return null;
      throw fault;
    }
  }

  // Where a goroutine stands.
  /** @param {string} name */
  async standing(name) {
    const [reply] = await this.inTurn(() => this.ask([{ row: this.log.length, view: `show ${name}` }]));
    if (!reply.isOk) throw new Unanswered(reply.last);
    return placed(parseGoroutine(reply), this.statements);
  }

  // Whether no goroutine is ready.
  async isStuck() {
    const { length, names } = this.log;
    for (let at = 0; at < names.length; at += AT_ONCE) {
      const replies = await this.views(length, names.slice(at, at + AT_ONCE).map((name) => `show ${name}`), () => length === this.log.length);
      if (!replies || replies.some(({ isOk, lines }) => isOk && parseGoroutine({ lines }).state === "ready")) return false;
    }
    return true;
  }

  // The steps that these commands list: `causes ID`, `deps ID`. They enter the journal.
  /**
   * @param {string[]} commands
   * @returns {Promise<Listed[]>}
   */
  lists(commands) {
    return this.inTurn(() => this.remote.questions(commands, "listed"));
  }
}
