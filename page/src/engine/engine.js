// The program `rewind` as a WebAssembly module, run on one source.
//
// Where the browser can suspend WebAssembly (JSPI), one run of the program lives as long as its session: its read waits for the
// next command. Elsewhere each exchange runs the program from its start over the commands that changed the session before.

import { QUESTIONS, decoder, encoder } from "./protocol.js";

const ERRORS = 2; // the descriptor of the stream for errors; 0 and 1 are the other standard streams
const WORDS = 4; // that of the words of the command line, each with a nul behind it
const SOURCE = 5; // that of the source file
const NO_SUCH_FILE = -2;
const FILE = "program.go";
export const DEBUG = ["rewind", FILE];
export const CLIENT = ["rewind", "--json", FILE]; // answers are told by the protocol of clients

// What the program's `_exit` throws: the run is over, with this status.
class Exit {
  /** @param {number} status */
  constructor(status) {
    this.status = status;
  }
}

// The status of a run that was ended by what was thrown. A fault of the program is thrown on.
/** @param {unknown} thrown */
function statusOf(thrown) {
  if (thrown instanceof Exit) return thrown.status;
  throw thrown;
}

/** @param {number} descriptor */
const isGiven = (descriptor) => descriptor === SOURCE || descriptor === WORDS;

export const canSuspend = () => "Suspending" in WebAssembly && "promising" in WebAssembly;

// A count as the program takes it: wide where it asked for a wide one, as a program of 64 bits does.
/**
 * @param {number} count
 * @param {number | bigint} like
 */
const asWide = (count, like) => (typeof like === "bigint" ? BigInt(count) : count);

/** @param {Uint8Array[]} pieces */
function joined(pieces) {
  const all = new Uint8Array(pieces.reduce((sum, piece) => sum + piece.length, 0));
  let at = 0;
  for (const piece of pieces) {
    all.set(piece, at);
    at += piece.length;
  }
  return all;
}

// The bytes that go into the program and come out of it: what one run reads and writes.
class Streams {
  /**
   * @param {Uint8Array} source
   * @param {string[]} words of the command line
   */
  constructor(source, words) {
    this.source = source;
    this.words = encoder.encode(words.map((word) => `${word}\0`).join(""));
    /** @type {Uint8Array[]} */
    this.input = [];
    /** @type {Uint8Array[]} */
    this.output = [];
    this.written = 0;
    this.errors = "";
    /** @type {any} */
    this.memory = null;
  }

  // Moves bytes to the program's memory; gives how many.
  /**
   * @param {Uint8Array} piece
   * @param {number | bigint} to
   * @param {number | bigint} most
   */
  move(piece, to, most) {
    const count = Math.min(Number(most), piece.length);
    new Uint8Array(this.memory.buffer, Number(to), count).set(piece.subarray(0, count));
    return count;
  }

  // The descriptor of the source, where the program asks for it.
  /**
   * @param {number | bigint} path
   * @param {number | bigint} length
   */
  open(path, length) {
    const name = decoder.decode(new Uint8Array(this.memory.buffer, Number(path), Number(length)));
    return asWide(name === FILE ? SOURCE : NO_SUCH_FILE, length);
  }

  // Reads of what is no standard stream.
  /**
   * @param {number} descriptor
   * @param {number | bigint} to
   * @param {number | bigint} most
   */
  readGiven(descriptor, to, most) {
    const given = descriptor === SOURCE ? "source" : "words";
    const count = this.move(this[given], to, most);
    this[given] = this[given].subarray(count);
    return asWide(count, most);
  }

  // Reads of the first piece of input that is left. There is one.
  /**
   * @param {number | bigint} to
   * @param {number | bigint} most
   */
  readInput(to, most) {
    const count = this.move(this.input[0], to, most);
    this.input[0] = this.input[0].subarray(count);
    if (!this.input[0].length) this.input.shift();
    return asWide(count, most);
  }

  /**
   * @param {number} descriptor
   * @param {number | bigint} from
   * @param {number | bigint} count
   */
  write(descriptor, from, count) {
    const piece = new Uint8Array(this.memory.buffer, Number(from), Number(count)).slice();
    if (descriptor === ERRORS) {
      this.errors += decoder.decode(piece);
    } else {
      this.output.push(piece);
      this.written += piece.length;
    }
    return count;
  }

  // Takes what was written since the last time.
  takeOutput() {
    return joined(this.output.splice(0));
  }

  /**
   * @param {WebAssembly.Module} program
   * @param {any} read
   */
  async instance(program, read) {
    const open = /** @type {Streams["open"]} */ ((path, length) => this.open(path, length));
    const write = /** @type {Streams["write"]} */ ((descriptor, from, count) => this.write(descriptor, from, count));
    const exit = /** @param {number} status */ (status) => {
      throw new Exit(status);
    };
    const { exports } = /** @type {any} */ (await WebAssembly.instantiate(program, { host: { open, read, write, exit } }));
    this.memory = exports.memory;
    return exports.program_main;
  }
}

// A session whose run waits between commands.
class WaitingRun {
  /**
   * @param {WebAssembly.Module} program
   * @param {Uint8Array} source
   * @param {string[]} words
   */
  constructor(program, source, words) {
    this.program = program;
    this.streams = new Streams(source, words);
    this.wake = () => {};
    this.settle = () => {};
    /** @type {number | null} */
    this.status = null;
    this.fault = "";
    this.isClosed = false;
  }

  get errors() {
    return this.streams.errors;
  }

  async start() {
    const api = /** @type {any} */ (WebAssembly);
    const read = new api.Suspending((/** @type {any[]} */ ...words) => this.read(words[0], words[1], words[2]));
    const main = api.promising(await this.streams.instance(this.program, read));
    const settled = this.nextSettling();
    main().catch(statusOf).then((/** @type {number} */ status) => this.end(status), (/** @type {unknown} */ fault) => this.end(-1, String(fault)));
    await settled;
    return this.streams.takeOutput();
  }

  nextSettling() {
    return new Promise((settle) => (this.settle = /** @type {() => void} */ (settle)));
  }

  /** @param {number} status */
  end(status, fault = "") {
    this.status = status;
    this.fault = fault;
    this.settle();
  }

  /**
   * @param {number} descriptor
   * @param {number | bigint} to
   * @param {number | bigint} most
   */
  async read(descriptor, to, most) {
    if (isGiven(descriptor)) return this.streams.readGiven(descriptor, to, most);
    if (!this.streams.input.length && !this.isClosed) {
      const woken = new Promise((wake) => (this.wake = /** @type {() => void} */ (wake)));
      this.settle();
      await woken;
    }
    return this.isClosed ? asWide(0, most) : this.streams.readInput(to, most);
  }

  /** @param {Uint8Array} bytes */
  async exchange(bytes) {
    const settled = this.nextSettling();
    this.streams.input.push(bytes);
    this.wake();
    await settled;
    return this.streams.takeOutput();
  }

  // The end of the input, at which the run ends.
  async close() {
    const settled = this.nextSettling();
    this.isClosed = true;
    this.wake();
    await settled;
    return this.streams.takeOutput();
  }
}

// A session that is run anew for each exchange.
class RepeatedRun {
  /**
   * @param {WebAssembly.Module} program
   * @param {Uint8Array} source
   * @param {string[]} words
   */
  constructor(program, source, words) {
    this.program = program;
    this.source = source;
    this.words = words;
    /** @type {Uint8Array[]} */
    this.kept = [];
    /** @type {number | null} */
    this.status = null;
    this.fault = "";
    this.errors = "";
  }

  start() {
    return this.exchange(new Uint8Array(0));
  }

  /** @param {Uint8Array} bytes */
  async exchange(bytes) {
    const streams = new Streams(this.source, this.words);
    const pieces = [...this.kept, bytes].filter((piece) => piece.length);
    let before = bytes.length ? Infinity : 0;
    let waits = false;
    const read = (/** @type {number} */ descriptor, /** @type {number | bigint} */ to, /** @type {number | bigint} */ most) => {
      if (isGiven(descriptor)) return streams.readGiven(descriptor, to, most);
      if (!streams.input.length && !pieces.length) waits = true;
      if (waits) return asWide(0, most);
      if (!streams.input.length) streams.input.push(/** @type {Uint8Array} */ (pieces.shift()));
      if (!pieces.length && before === Infinity) before = streams.written;
      return streams.readInput(to, most);
    };
    const status = this.statusAtEnd(await streams.instance(this.program, read));
    if (!waits) this.status = status;
    this.errors = streams.errors;
    this.keep(bytes);
    return streams.takeOutput().subarray(before);
  }

  /** @param {() => number} main */
  statusAtEnd(main) {
    try {
      return main();
    } catch (thrown) {
      if (thrown instanceof Exit) return thrown.status;
      this.fault = String(thrown);
      return -1;
    }
  }

  // There is no run that waits, and each run was told the end of its input.
  async close() {
    this.status ??= 0;
    return new Uint8Array(0);
  }

  // Keeps the commands that change a session; a question changes nothing.
  /** @param {Uint8Array} bytes */
  keep(bytes) {
    const lines = decoder.decode(bytes).split("\n");
    const changing = lines.filter((line) => line.trim() && !QUESTIONS.has(line.trim().split(/[ \t]/)[0]));
    if (changing.length) this.kept.push(encoder.encode(changing.join("\n") + "\n"));
  }
}

// Runs the program from its start to its end, over all that it may read: the words of its command line, a source, and its input.
/**
 * @param {WebAssembly.Module} program
 * @param {string[]} words
 * @param {Uint8Array} source
 * @param {Uint8Array} input
 */
export async function wholeRun(program, words, source, input) {
  const streams = new Streams(source, words);
  if (input.length) streams.input.push(input);
  const read = (/** @type {number} */ descriptor, /** @type {number | bigint} */ to, /** @type {number | bigint} */ most) => {
    if (isGiven(descriptor)) return streams.readGiven(descriptor, to, most);
    return streams.input.length ? streams.readInput(to, most) : asWide(0, most);
  };
  const main = await streams.instance(program, read);
  const status = endOf(main);
  return { status, output: decoder.decode(streams.takeOutput()), errors: streams.errors };
}

/** @param {() => number} main */
function endOf(main) {
  try {
    return main();
  } catch (thrown) {
    return statusOf(thrown);
  }
}

// A session of the program on a source. `said` is what it wrote before it read a command: nothing, or why the source is refused.
export class Session {
  /**
   * @param {WebAssembly.Module} program
   * @param {Uint8Array} source
   * @param {boolean} suspends
   * @param {string[]} words of the command line
   */
  constructor(program, source, suspends, words) {
    this.run = new (suspends ? WaitingRun : RepeatedRun)(program, source, words);
    this.turn = /** @type {Promise<unknown>} */ (Promise.resolve());
    this.said = "";
  }

  /**
   * @param {WebAssembly.Module} program
   * @param {Uint8Array} source
   */
  static async open(program, source, suspends = canSuspend(), words = DEBUG) {
    const session = new Session(program, source, suspends, words);
    session.said = decoder.decode(await session.run.start());
    return session;
  }

  // The exit status of the program where it has ended, -1 where a fault of the module ended it, else null.
  get status() {
    return this.run.status;
  }

  // Why the program's code could not go on, in the words of the browser.
  get fault() {
    return this.run.fault;
  }

  // What was written to standard error.
  get errors() {
    return this.run.errors;
  }

  // Gives whole lines of commands, and returns what is written in answer. Calls are served one after another.
  /**
   * @param {Uint8Array} bytes
   * @returns {Promise<Uint8Array>}
   */
  exchange(bytes) {
    const answer = this.turn.then(() => (this.status === null ? this.run.exchange(bytes) : new Uint8Array(0)));
    this.turn = answer.catch(() => {});
    return answer;
  }

  // Ends the input, and returns what is still written: the reply to a last line without a newline.
  /** @returns {Promise<Uint8Array>} */
  async close() {
    await this.turn;
    return this.status === null ? this.run.close() : new Uint8Array(0);
  }
}
