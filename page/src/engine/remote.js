// A session of the program in a worker of its own: asked over messages, and ended at once where need be.

import { encoder } from "./protocol.js";
import { phrase } from "../phrases.js";

// The session answers no more: its program has ended, or its worker.
export class SessionGone extends Error {}

// A question that was refused, where the page counts on an answer: the journal is full, or there is no memory.
export class Unanswered extends Error {
  /** @param {string} refusal */
  constructor(refusal) {
    super(phrase("the session refused a question: {refusal}", { refusal }));
    this.code = refusal.split(" ")[1] || "";
  }
}

// Whether it is a session that did not answer, and not an error of the page.
/** @param {unknown} fault */
export const isUnanswered = (fault) => fault instanceof SessionGone || fault instanceof Unanswered;

export class RemoteSession {
  /** @param {Machine} machine */
  constructor(machine) {
    /** @type {number | null} */
    this.status = null;
    this.machine = machine;
    this.errors = "";
    this.fault = "";
    this.last = 0;
    /** @type {Map<number, {answer: (answers: any[]) => void, refuse: (fault: Error) => void, wanted: number}>} */
    this.waiting = new Map();
    this.worker = new Worker(machine.script);
    this.worker.onmessage = ({ data }) => this.take(data);
    this.worker.onerror = (event) => this.end(phrase("the worker of the session ended: {reason}", { reason: event.message }));
  }

  // Opens a session on a source; where the source is refused, `errors` says why. `isClient`: it answers queries beside commands.
  /**
   * @param {Machine} machine
   * @param {string} source
   */
  static async open(machine, source, isClient = false) {
    const session = new RemoteSession(machine);
    await session.send({ program: machine.program, source: encoder.encode(source), suspends: machine.suspends, isClient }, 0);
    return session;
  }

  // Runs the program once, to its end, with words of a command line; `close` ends it before.
  /**
   * @param {string[]} words
   * @param {string} source
   * @param {string} input
   * @returns {Promise<{status: number, output: string, errors: string}>}
   */
  async whole(words, source, input) {
    const given = { source: encoder.encode(source), input: encoder.encode(input), words };
    return (await this.send({ program: this.machine.program, ...given }, 1))[0];
  }

  /** @param {any} data */
  take({ id, answers, status, errors, fault }) {
    Object.assign(this, { status, errors, fault });
    const call = this.waiting.get(id);
    this.waiting.delete(id);
    if (!call) return;
    if (answers.length >= call.wanted) call.answer(answers);
    else call.refuse(new SessionGone(this.reason));
  }

  // Why the session is gone, in words.
  get reason() {
    if (/rewind: memory/.test(this.errors) || /memory/i.test(this.fault)) return phrase("there was no more memory for it");
    if (this.fault) return phrase("its program could not go on ({reason})", { reason: this.fault });
    const status = String(this.status);
    if (this.status === 0) return phrase("it was ended");
    return this.errors ? phrase("its program ended with status {status} ({reason})", { status, reason: this.errors.trim() }) : phrase("its program ended with status {status}", { status });
  }

  /**
   * @param {object} message
   * @param {number} wanted
   * @returns {Promise<any[]>}
   */
  send(message, wanted) {
    if (this.status !== null) return Promise.reject(new SessionGone(this.reason));
    const id = ++this.last;
    return new Promise((answer, refuse) => {
      this.waiting.set(id, { answer, refuse, wanted });
      this.worker.postMessage({ id, ...message });
    });
  }

  // Asks commands at once, none of them blank. There is an answer to each, or the session is gone.
  /**
   * @param {string[]} commands
   * @returns {Promise<any[]>}
   */
  askAll(commands, shape = "replies") {
    return commands.length ? this.send({ commands, shape }, commands.length) : Promise.resolve([]);
  }

  /** @param {string} command */
  async ask(command, shape = "replies") {
    return (await this.askAll([command], shape))[0];
  }

  // Asks questions, each of which must be answered.
  /** @param {string[]} commands */
  async questions(commands, shape = "replies") {
    const replies = await this.askAll(commands, shape);
    const refused = replies.find((reply) => !reply.isOk);
    if (refused) throw new Unanswered(refused.last || "no");
    return replies;
  }

  /** @param {string} reason */
  end(reason) {
    this.status ??= -1;
    this.fault ||= reason;
    for (const { refuse } of this.waiting.values()) refuse(new SessionGone(this.reason));
    this.waiting.clear();
  }

  // Ends the worker, whatever it does.
  close() {
    this.worker.terminate();
    this.status ??= 0;
    this.end("");
  }
}
