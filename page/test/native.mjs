// A stand-in for the workers of the page: each holds a session of the native program, so that the page's modules run without a browser.

import { spawn } from "node:child_process";
import { mkdtempSync, rmSync, writeFileSync } from "node:fs";
import { tmpdir } from "node:os";
import { join } from "node:path";
import { encoder } from "../src/engine/protocol.js";
import { shaped, shapedAnswers } from "../src/engine/shapes.js";

const folder = mkdtempSync(join(tmpdir(), "rewind-faces-"));
process.on("exit", () => rmSync(folder, { recursive: true, force: true }));
const QUIET = "clear 4294967295"; // a command whose reply tells that those before it are answered
let count = 0;

/** @typedef {{id: number, source: Uint8Array, isClient: boolean, commands: string[], shape: string}} Asked */

class NativeSession {
  /**
   * @param {string} program
   * @param {Uint8Array} source
   * @param {boolean} isClient
   */
  constructor(program, source, isClient) {
    const path = join(folder, `${++count}.go`);
    writeFileSync(path, source);
    this.isClient = isClient;
    this.child = spawn(program, isClient ? ["--json", path] : [path], { stdio: ["pipe", "pipe", "pipe"] });
    this.text = "";
    this.errors = "";
    /** @type {number | null} */
    this.status = null;
    /** @type {(it?: unknown) => void} */
    this.wanted = () => {};
    this.child.stdout.setEncoding("utf8").on("data", (text) => this.take(text));
    this.child.stderr.setEncoding("utf8").on("data", (text) => (this.errors += text));
    this.ended = new Promise((end) => this.child.on("close", (status) => end((this.status = status ?? -1))));
    this.child.stdin.on("error", () => {});
    this.ended.then(() => this.wanted());
  }

  /** @param {string} text */
  take(text) {
    this.text += text;
    if (this.text.endsWith("\n")) this.wanted();
  }

  // The text of the replies to some commands.
  /** @param {string[]} commands */
  async ask(commands) {
    this.text = "";
    this.child.stdin.write(commands.map((line) => `${line}\n`).join(""));
    while (this.status === null && this.replies() < commands.length) await new Promise((go) => (this.wanted = go));
    return this.text;
  }

  /**
   * @param {string[]} commands
   * @param {string} shape
   */
  async shaped(commands, shape) {
    const bytes = encoder.encode(await this.ask(commands));
    return this.isClient ? shapedAnswers(bytes, shape) : shaped(bytes, shape);
  }

  replies() {
    return this.text.endsWith("\n") ? (this.text.match(/^(?!\|).+$/gm) || []).length : 0;
  }
}

// What stands for `Worker`; `program` is the path of the native program.
/** @param {string} program */
export function workersOf(program) {
  return class {
    constructor() {
      this.turn = Promise.resolve();
      /** @type {NativeSession | null} */
      this.session = null;
      /** @type {(message: {data: object}) => void} */
      this.onmessage = () => {};
    }

    /** @param {Asked} data */
    postMessage(data) {
      this.turn = this.turn.then(() => this.answer(data));
    }

    /** @param {Asked} asked */
    async answer({ id, source, isClient, commands, shape }) {
      /** @type {any[]} */
      let answers = [];
      if (!this.session) {
        this.session = new NativeSession(program, source, isClient);
        await Promise.race([this.session.ended, this.session.ask([QUIET])]);
      } else {
        answers = await this.session.shaped(commands, shape);
      }
      const { status, errors } = this.session;
      this.onmessage({ data: { id, answers, status, errors, fault: "" } });
    }

    terminate() {
      this.session?.child.kill();
    }
  };
}
