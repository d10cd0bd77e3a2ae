// A monkey: random commands, clicks and looks in the page, with a native program beside it that gets the same commands. After each round
// what the page shows is what the program answers. A hasty one does not wait between its moves.

import assert from "node:assert/strict";
import { existsSync } from "node:fs";
import { spawn } from "node:child_process";
import { createInterface } from "node:readline";
import { Hands } from "./hands.mjs";

const SESSIONS = new URL("../../crates/sessions/data/", import.meta.url).pathname;
const STORIES = ["lost_update", "deadlock", "send_on_closed", "leaked_goroutine", "race_in_select", "buffered_channel", "prime_sieve",
  "fibonacci_select", "default_selection", "replayed_workers_1", "replayed_workers_2", "replayed_race_in_select"];
/** @typedef {(most: number) => number} Roll a number below `most` */
/** @typedef {(hands: Hands, native: Native, roll: Roll) => Promise<string[]>} Moves the moves of a round, which gives the commands that came to the session */
/** @typedef {{program: string, rounds: number, seed: number}} Given */
const MOVES = 12; // a round
const LISTS = 5; // steps of a round whose causes and consequences are compared

// Numbers that look random, the same for each seed.
/** @param {number} seed */
function dice(seed) {
  let state = seed >>> 0 || 1;
  return (/** @type {number} */ most) => {
    state ^= state << 13;
    state ^= state >>> 17;
    state ^= state << 5;
    return (state >>> 0) % most;
  };
}

// A native session.
class Native {
  /**
   * @param {string} program
   * @param {string} source
   */
  constructor(program, source) {
    this.child = spawn(program, [source]);
    this.lines = createInterface({ input: this.child.stdout })[Symbol.asyncIterator]();
  }

  /** @param {string} line */
  async ask(line) {
    this.child.stdin.write(`${line}\n`);
    const lines = [];
    for (;;) {
      const { value } = await this.lines.next();
      if (!value.startsWith("|")) return { lines, last: value };
      lines.push(value.slice(2));
    }
  }

  close() {
    this.child.stdin.end();
  }
}

// A command that may fit the session, or not.
/**
 * @param {Roll} roll
 * @param {string[]} ids
 * @param {string[]} names
 */
function commandFor(roll, ids, names) {
  const [id, name] = [ids[roll(ids.length || 1)] || "g0#1", names[roll(names.length)]];
  const order = [...ids];
  if (order.length > 1) {
    const at = roll(order.length - 1);
    [order[at], order[at + 1]] = [order[at + 1], order[at]];
  }
  const lines = [`step ${name}`, `step ${name}`, `step ${name} ${1 + roll(3)}`, "undo", `back ${id}`, "redo", `run ${1 + roll(9)}`, `run ${1 + roll(60)}`,
    `order ${order.join(" ")}`, `break ${3 + roll(12)}`, `clear ${3 + roll(12)}`, `causes ${id}`, `back send g0/c1 ${1 + roll(3)}`, `show ${name}`];
  return lines[roll(lines.length)];
}

// Runs in the page: what it shows.
function shownInPage() {
  const { page } = window.rewind;
  const { log, scene, breakpoints } = page.session;
  return {
    log: log.steps(0, log.length).map((/** @type {{id: string, kind: string}} */ { id, kind }) => `${id} ${kind}`),
    console: scene.console.lines,
    goroutines: scene.goroutines.map((/** @type {Goroutine} */ { name, state, steps, line }) => [name, state, steps, line]),
    channels: scene.channels.map((/** @type {Channel} */ it) => [it.name, it.items.join(" "), it.senders.join(" "), it.receivers.join(" ")]),
    clauses: [...scene.clauses].map(([name, ready]) => [name, ready.map((/** @type {{number: number}} */ { number }) => number)]),
    undone: log.gone.size, printed: log.steps(0, log.length).flatMap((/** @type {{id: string}} */ { id }) => page.note(id)?.printed || []),
    breaks: [...breakpoints].sort(), noted: log.steps(0, log.length).filter((/** @type {{id: string}} */ { id }) => page.note(id) && page.session.order.edges.has(id)).length,
    errors: page.errors,
  };
}

// What the native session says of the same.
/**
 * @param {Native} native
 * @param {string[]} names
 * @param {string[]} channels
 */
async function toldNatively(native, names, channels) {
  const goroutines = [];
  for (const name of names) {
    const [first] = (await native.ask(`show ${name}`)).lines;
    const [, state, steps, , line] = first.split(" ");
    goroutines.push([name, state, Number(steps), line ? Number(line) : null]);
  }
  const rows = [];
  for (const name of channels) {
    const [, items, senders, receivers] = (await native.ask(`chan ${name}`)).lines;
    rows.push([name, ...[items, senders, receivers].map((row) => row.split(" ").slice(1).join(" "))]);
  }
  const printed = (await native.ask("console")).lines;
  return { log: (await native.ask("log")).lines, console: printed, goroutines, channels: rows, printed };
}

// What a hasty monkey does between commands.
const LOOKS = ["rewind.act(rewind.page, 'fold')", "rewind.act(rewind.page, 'direct')", "rewind.act(rewind.page, 'fit')", "rewind.page.nextGoroutine(1)",
  "rewind.act(rewind.page, 'to-line')", "rewind.act(rewind.page, 'over')", "rewind.act(rewind.page, 'alone')", "rewind.act(rewind.page, 'back')", "rewind.act(rewind.page, 'later')",
  "rewind.page.views.columns.toggle('g0.1')", "rewind.page.views.picture.host.scrollTop = 1e6", "rewind.page.pointing.takeBack()", "rewind.page.past.back()",
  "document.getElementById('search-text').value = 'o', document.getElementById('search').onsubmit(new Event('submit'))",
  "document.querySelector('#goroutines .asked-value, #channels .asked-value')?.click()"];

// The commands that the page gave to its session, in their order.
const RECORDING = `(() => { const { session } = rewind.page, { command } = session; window.given = [];
  session.command = function (line) { window.given.push(line); return command.call(this, line); }; })()`;

// Moves that wait for nothing. The session beside gets the commands that came to the page's.
/**
 * @param {Hands} hands
 * @param {Native} native
 * @param {Roll} roll
 */
async function hastyMoves(hands, native, roll) {
  const { browser } = hands;
  await browser.run(RECORDING);
  for (let move = 0; move < 2 * MOVES; move++) {
    const [ids, names] = [await hands.ids(), await browser.run("rewind.page.session.log.names")];
    if (ids.length > 400) break;
    const id = ids[roll(ids.length || 1)] || "";
    const looks = [...LOOKS, `rewind.page.past.lookAt(${roll(ids.length + 1)})`, `rewind.page.pointing.choose(${JSON.stringify(id)})`, `rewind.page.pointing.point(${JSON.stringify(id)})`,
      `rewind.page.pointing.move(${JSON.stringify(id)}, ${roll(ids.length + 1)})`, `rewind.toggleBreak(rewind.page, ${1 + roll(25)})`];
    for (let look = roll(4); look > 0; look--) await browser.run(`${looks[roll(looks.length)]}, 0`);
    await browser.run(`rewind.page.perform(${JSON.stringify(commandFor(roll, ids, names))}), 0`);
  }
  await browser.run("rewind.page.stop()");
  await hands.idle();
  await browser.run("rewind.page.past.back(), rewind.page.pointing.clear(), rewind.page.views.picture.hidden.clear()");
  await hands.idle();
  const given = (await browser.run("window.given")).filter((/** @type {string} */ line) => line.trim());
  for (const line of given) await native.ask(line);
  return given;
}

// Moves of which each is waited for, or not.
/**
 * @param {Hands} hands
 * @param {Native} native
 * @param {Roll} roll
 */
async function moves(hands, native, roll) {
  const done = [];
  for (let move = 0; move < MOVES; move++) {
    const [ids, names] = [await hands.ids(), await hands.browser.run("rewind.page.session.log.names")];
    if (ids.length > 400) break;
    if (!roll(5)) await hands.browser.run(`rewind.page.past.lookAt(${roll(ids.length + 1)}), 0`);
    if (!roll(5)) await hands.browser.run(`rewind.page.pointing.choose(${JSON.stringify(ids[roll(ids.length || 1)] || "")}), 0`);
    const line = commandFor(roll, ids, names);
    done.push(line);
    await hands.browser.run(`rewind.page.perform(${JSON.stringify(line)})${roll(2) ? ".then(() => 1)" : ", 0"}`);
    await native.ask(line);
  }
  await hands.idle();
  return done;
}

/**
 * @param {Hands} hands
 * @param {TestContext} t
 * @param {string} program
 * @param {number} seed
 * @param {Moves} act
 */
async function round(hands, t, program, seed, act) {
  const roll = dice(seed * 7919 + 13);
  const name = STORIES[roll(STORIES.length)];
  await hands.browser.run("rewind.page.views.editor.markBreaks([])"); // breakpoints of the round before would stay with their text
  await hands.program(name);
  const native = new Native(program, `${SESSIONS}${name}.go`);
  try {
    t.diagnostic(`${name}: ${(await act(hands, native, roll)).join(" | ")}`);
    const shown = await hands.browser.run(`(${shownInPage})()`);
    const told = await toldNatively(native, shown.goroutines.map((/** @type {any[]} */ [it]) => it), shown.channels.map((/** @type {any[]} */ [it]) => it));
    for (const [key, value] of Object.entries(told)) assert.deepEqual(shown[key], value, key);
    assert.equal(shown.noted, shown.log.length, "every step has its edges");
    assert.deepEqual(shown.errors, [], "the page has made no error of its own");
    await listsAgree(hands, native, shown.log, roll);
    await clausesAgree(native, shown);
    const dots = await hands.browser.run("rewind.page.views.editor.breaks");
    assert.deepEqual(dots, [...shown.breaks].sort((one, other) => one - other), "a dot for each breakpoint");
  } finally {
    native.close();
  }
}

// How many steps a reply lists, and of each goroutine the first and the last.
/** @param {{last: string}} reply */
function spansIn({ last }) {
  const ids = last.split(" ").slice(2);
  /** @type {{[name: string]: number[]}} */
  const spans = {};
  for (const [name, number] of ids.map((id) => id.split("#"))) spans[name] = [spans[name]?.[0] || Number(number), Number(number)];
  return [ids.length, Object.entries(spans).sort()];
}

// Causes and consequences of some steps are those that the program tells.
/**
 * @param {Hands} hands
 * @param {Native} native
 * @param {string[]} log
 * @param {Roll} roll
 */
async function listsAgree(hands, native, log, roll) {
  for (let count = 0; count < LISTS && log.length; count++) {
    const id = log[roll(log.length)].split(" ")[0];
    const shown = await hands.browser.run(`rewind.page.session.known.of(${JSON.stringify(id)}).then((lists) => lists.map((it) => [it.count, [...it.spans].sort()]))`);
    assert.deepEqual(shown, [spansIn(await native.ask(`causes ${id}`)), spansIn(await native.ask(`deps ${id}`))], `causes and consequences of ${id}`);
  }
}

// The clauses that the page offers are those that the program takes.
/**
 * @param {Native} native
 * @param {{clauses: [string, number[]][], log: string[]}} shown
 */
async function clausesAgree(native, { clauses, log }) {
  if (/exit|fault/.test(log.at(-1) || "")) return;
  for (const [name, offered] of clauses) {
    const ready = [];
    for (let number = 1; number <= 4; number++) {
      if (!(await native.ask(`step ${name} ${number}`)).last.startsWith("ok")) continue;
      await native.ask("undo");
      ready.push(number);
    }
    assert.deepEqual(offered, ready, `ready clauses of ${name}`);
  }
}

// Rounds of a monkey with this program, from a seed on.
/**
 * @param {TestContext} t
 * @param {TestBrowser} browser
 * @param {{program: string, rounds: number, seed: number}} given
 */
export async function monkey(t, browser, { program, rounds, seed }, act = moves) {
  assert.ok(existsSync(program), `there is no program ${program} to compare the page with`);
  const hands = new Hands(browser);
  for (let at = seed; at < seed + rounds; at++) await t.test(`round ${at}`, (/** @type {TestContext} */ t) => round(hands, t, program, at, act));
}

/**
 * @param {TestContext} t
 * @param {TestBrowser} browser
 * @param {Given} given
 */
export const hastyMonkey = (t, browser, given) => monkey(t, browser, given, hastyMoves);
