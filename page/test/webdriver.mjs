// Firefox, and MiniBrowser of WebKitGTK, with one page, by the commands of WebDriver: over a socket of Firefox's, or over HTTP.

import { spawn } from "node:child_process";
import { existsSync, mkdtempSync, readFileSync, rmSync, writeFileSync } from "node:fs";
import { connect, createServer } from "node:net";
import { tmpdir } from "node:os";
import { join } from "node:path";
import { DidNotStart, within } from "./browser.mjs";

// Seconds.
const LONGEST_START = 60;
const LONGEST_ANSWER = 120;
const LONGEST_END = 10;
// The commands that are used, with their paths over HTTP.
/** @type {{[command: string]: string}} */
const PATHS = { Navigate: "url", ExecuteAsyncScript: "execute/async", SetWindowRect: "window/rect", PerformActions: "actions", SetTimeouts: "timeouts" };
const MINI_BROWSER = "/usr/lib/x86_64-linux-gnu/webkit2gtk-4.1/MiniBrowser";

/** @param {number} milliseconds */
const pause = (milliseconds) => new Promise((go) => setTimeout(go, milliseconds));

// What `attempt` gives as soon as it gives something; it may throw before.
/**
 * @template T
 * @param {() => Promise<T | false>} attempt
 * @param {string} sentence
 * @returns {Promise<T>}
 */
async function soon(attempt, sentence) {
  for (const began = Date.now(); Date.now() - began < 1000 * LONGEST_START; await pause(100)) {
    const found = await attempt().catch(() => null);
    if (found) return found;
  }
  throw new Error(sentence);
}

// Firefox's protocol: messages behind their lengths, [0, ID, COMMAND, PARAMETERS] and [1, ID, FAULT, RESULT].
class Marionette {
  /** @param {import("node:net").Socket} socket */
  constructor(socket) {
    this.socket = socket;
    /** @type {Map<number, (message: any[]) => void>} */
    this.calls = new Map();
    this.kept = Buffer.alloc(0);
    this.last = 0;
    socket.on("data", (data) => this.take(data)).on("error", () => {});
  }

  /** @param {number} port */
  static async open(port) {
    const socket = connect(port, "127.0.0.1");
    await new Promise((go, refuse) => socket.once("connect", go).once("error", refuse));
    const protocol = new Marionette(socket);
    await protocol.call("NewSession", {});
    return protocol;
  }

  /** @param {Buffer} data */
  take(data) {
    this.kept = Buffer.concat([this.kept, data]);
    for (let colon = this.kept.indexOf(":"); colon >= 0; colon = this.kept.indexOf(":")) {
      const end = colon + 1 + Number(this.kept.subarray(0, colon).toString());
      if (this.kept.length < end) return;
      const message = JSON.parse(this.kept.subarray(colon + 1, end).toString());
      this.kept = this.kept.subarray(end);
      if (Array.isArray(message)) this.calls.get(message[1])?.(message);
    }
  }

  /**
   * @param {string} command
   * @param {any} [params]
   */
  async call(command, params) {
    const id = ++this.last;
    const text = JSON.stringify([0, id, `WebDriver:${command}`, params]);
    /** @type {Promise<any[]>} */
    const answered = new Promise((answer) => this.calls.set(id, answer));
    this.socket.write(`${Buffer.byteLength(text)}:${text}`);
    const [, , fault, result] = await answered;
    if (fault) throw new Error(fault.message);
    return result?.value;
  }
}

class OverHttp {
  /** @param {string} address */
  constructor(address) {
    this.address = address;
  }

  /**
   * @param {number} port
   * @param {object} options
   */
  static async open(port, options) {
    const protocol = new OverHttp(`http://127.0.0.1:${port}/session`);
    const { sessionId } = await protocol.post("", { capabilities: { alwaysMatch: options } });
    protocol.address += `/${sessionId}`;
    return protocol;
  }

  /**
   * @param {string} path
   * @param {any} [params]
   */
  async post(path, params) {
    const said = await fetch(this.address + path, { method: "POST", body: JSON.stringify(params) });
    const { value } = await said.json();
    if (!said.ok) throw new Error(value.message);
    return value;
  }

  /**
   * @param {string} command
   * @param {any} [params]
   */
  call(command, params) {
    return this.post(`/${PATHS[command]}`, params);
  }
}

/** @returns {Promise<number>} */
function freePort() {
  const server = createServer();
  return new Promise((go) => server.listen(0, "127.0.0.1", () => {
    const { port } = server.address();
    server.close(() => go(port));
  }));
}

// Processes that are ended together, and their folder.
class Processes {
  constructor() {
    /** @type {{child: import("node:child_process").ChildProcess, ended: Promise<unknown>}[]} */
    this.all = [];
    this.folder = mkdtempSync(join(tmpdir(), "rewind-browser-"));
  }

  /** @param {string[]} words */
  start(words, options = {}) {
    const child = spawn(words[0], words.slice(1), { stdio: "ignore", ...options });
    const ended = new Promise((go) => child.on("exit", go).on("error", go));
    this.all.unshift({ child, ended });
    return child;
  }

  async end() {
    for (const { child, ended } of this.all) {
      child.kill();
      await within(LONGEST_END, ended, "").catch(() => child.kill("SIGKILL"));
    }
    rmSync(this.folder, { recursive: true, force: true, maxRetries: 5 });
  }
}

/** @param {Processes} processes */
async function firefox(processes) {
  const { folder } = processes;
  writeFileSync(join(folder, "user.js"), 'user_pref("marionette.port", 0);\n');
  processes.start(["firefox-esr", "--headless", "--marionette", "--profile", folder, "about:blank"]);
  const file = join(folder, "MarionetteActivePort");
  const port = await soon(async () => existsSync(file) && Number(readFileSync(file, "utf8")), "it opens no port");
  return Marionette.open(port);
}

// A display in memory; its number.
/** @param {Processes} processes */
async function display(processes) {
  const child = processes.start(["Xvfb", "-displayfd", "3", "-nolisten", "tcp", "-screen", "0", "1400x1000x24"], { stdio: ["ignore", "ignore", "ignore", "pipe"] });
  return new Promise((go, refuse) => child.on("exit", () => refuse(new Error("Xvfb does not run"))).on("error", refuse).stdio[3].once("data", (text) => go(String(text).trim())));
}

/** @param {Processes} processes */
async function webkit(processes) {
  const port = await freePort();
  const screen = { DISPLAY: `:${await display(processes)}`, WEBKIT_DISABLE_COMPOSITING_MODE: "1", LIBGL_ALWAYS_SOFTWARE: "1", HOME: processes.folder };
  const env = { ...process.env, ...screen, WEBKIT_DISABLE_SANDBOX_THIS_IS_DANGEROUS: "1" };
  processes.start(["WebKitWebDriver", `--port=${port}`], { env });
  await soon(() => fetch(`http://127.0.0.1:${port}/status`), "its driver does not answer");
  return OverHttp.open(port, { "webkitgtk:browserOptions": { binary: MINI_BROWSER, args: ["--automation"] } });
}

// How browsers are opened, and the programs that they need.
/** @type {{[name: string]: {open: (processes: Processes) => Promise<Marionette | OverHttp>, programs: string[]}}} */
export const BROWSERS = {
  Firefox: { open: firefox, programs: ["firefox-esr"] },
  WebKitGTK: { open: webkit, programs: ["WebKitWebDriver", "Xvfb", MINI_BROWSER] },
};

// Notes what goes wrong in the page. That sizes are told a frame later is no fault.
const NOTING = `window.faultsSeen = [],
  window.addEventListener("error", ({ message }) => message.startsWith("ResizeObserver loop") || window.faultsSeen.push(message)),
  window.addEventListener("unhandledrejection", ({ reason }) => window.faultsSeen.push(String(reason)))`;

export class DrivenBrowser {
  /**
   * @param {Processes} processes
   * @param {Marionette | OverHttp} protocol
   */
  constructor(processes, protocol) {
    this.processes = processes;
    this.protocol = protocol;
    /** @type {string[]} */
    this.faults = [];
  }

  /** @param {string} name */
  static async open(name) {
    const processes = new Processes();
    try {
      const protocol = await within(LONGEST_START, BROWSERS[name].open(processes), `it does not answer in ${LONGEST_START} seconds`);
      const browser = new DrivenBrowser(processes, protocol);
      await browser.call("SetTimeouts", { script: 1000 * LONGEST_ANSWER, pageLoad: 1000 * LONGEST_START });
      return browser;
    } catch (fault) {
      await processes.end();
      throw new DidNotStart(`${name} does not run: ${/** @type {Error} */ (fault).message}`);
    }
  }

  /**
   * @param {string} command
   * @param {any} [params]
   */
  call(command, params) {
    return within(LONGEST_ANSWER, this.protocol.call(command, params), `no answer in ${LONGEST_ANSWER} seconds to ${command} ${params?.script || ""}`);
  }

  // Loads a file, and waits until the page has begun its first session.
  /** @param {string} file */
  async load(file, hash = "") {
    await this.call("Navigate", { url: `file://${file}${hash}` });
    const [isStarted] = await soon(() => this.run("window.started?.then((is) => [is])"), "the script of the page did not run");
    if (!isStarted) throw new DidNotStart(`the page did not start: ${await this.run("document.getElementById('cannot').textContent")}`);
    await this.run(NOTING);
  }

  async takeFaults() {
    this.faults = await this.run("window.faultsSeen");
  }

  // Evaluates an expression in the page; of a promise, what it comes to.
  /** @param {string} expression */
  async run(expression) {
    const script = `const done = arguments[arguments.length - 1];
      (async () => ({ value: await (${expression}) }))().catch((fault) => ({ fault: String(fault) })).then(done);`;
    const { value, fault } = await this.call("ExecuteAsyncScript", { script, args: [], sandbox: null });
    if (fault) throw new Error(fault);
    return value;
  }

  /**
   * @param {number} width
   * @param {number} height
   */
  size(width, height) {
    return this.call("SetWindowRect", { width, height });
  }

  /**
   * @param {string} type
   * @param {object | null} parameters
   * @param {object[]} actions
   */
  act(type, parameters, actions) {
    return this.call("PerformActions", { actions: [{ type, id: type, ...(parameters && { parameters }), actions }] });
  }

  /** @param {string} value */
  key(value) {
    return this.act("key", null, [{ type: "keyDown", value }, { type: "keyUp", value }]);
  }

  /**
   * @param {string} type
   * @param {number} x
   * @param {number} y
   */
  async mouse(type, x, y) {
    const move = { type: "pointerMove", x: Math.round(x), y: Math.round(y), duration: 0, origin: "viewport" };
    /** @type {{[type: string]: object[]}} */
    const press = { mousePressed: [{ type: "pointerDown", button: 0 }], mouseReleased: [{ type: "pointerUp", button: 0 }] };
    await this.act("pointer", { pointerType: "mouse" }, [move, ...(press[type] || [])]);
  }

  /**
   * @param {number} x
   * @param {number} y
   */
  async click(x, y) {
    for (const type of ["mousePressed", "mouseReleased"]) await this.mouse(type, x, y);
  }

  // The tests look at no picture of these.
  async shot() {}

  close() {
    return this.processes.end();
  }
}
